; LLVM's interpreter over this library: it calls what is declared here, with integers, floats and pointers, and any
; number of arguments.
declare double @ldexp(double, i32)
declare i64 @strlen(ptr)
declare i32 @abs(i32)
declare i32 @printf(ptr, ...)
declare ptr @fopen(ptr, ptr)
declare ptr @fgets(ptr, i32, ptr)
declare ptr @strstr(ptr, ptr)
declare ptr @strchr(ptr, i32)
declare i32 @strcmp(ptr, ptr)
declare i32 @sprintf(ptr, ptr, ...)
declare void @exit(i32)

@seven = constant [8 x i8] c"seven..\00"
@format = constant [15 x i8] c"%d %.3f %ld %s\00"
@wanted = constant [21 x i8] c"-5 2.250 1234567 abc\00"
@abc = constant [4 x i8] c"abc\00"
@maps = constant [16 x i8] c"/proc/self/maps\00"
@read = constant [2 x i8] c"r\00"
@name = constant [10 x i8] c"libffi.so\00"
@line = constant [3 x i8] c"%s\00"

define void @expect(i1 %holds, i32 %status) {
  br i1 %holds, label %end, label %fail
fail:
  call void @exit(i32 %status)
  ret void
end:
  ret void
}

define i32 @main() {
  %length = call i64 @strlen(ptr @seven)
  %is_seven = icmp eq i64 %length, 7
  call void @expect(i1 %is_seven, i32 1)
  %nine = call double @ldexp(double 1.125, i32 3)
  %is_nine = fcmp oeq double %nine, 9.0
  call void @expect(i1 %is_nine, i32 2)
  %three = call i32 @abs(i32 -3)
  %is_three = icmp eq i32 %three, 3
  call void @expect(i1 %is_three, i32 3)
  %text = alloca [512 x i8]
  %count = call i32 (ptr, ptr, ...) @sprintf(ptr %text, ptr @format, i32 -5, double 2.25, i64 1234567, ptr @abc)
  %compared = call i32 @strcmp(ptr %text, ptr @wanted)
  %is_alike = icmp eq i32 %compared, 0
  call void @expect(i1 %is_alike, i32 4)
  %file = call ptr @fopen(ptr @maps, ptr @read)
  br label %next
next:
  %got = call ptr @fgets(ptr %text, i32 512, ptr %file)
  %is_end = icmp eq ptr %got, null
  br i1 %is_end, label %none, label %look
look:
  %found = call ptr @strstr(ptr %text, ptr @name)
  %is_other = icmp eq ptr %found, null
  br i1 %is_other, label %next, label %tell
tell:
  %path = call ptr @strchr(ptr %text, i32 47)
  call i32 (ptr, ...) @printf(ptr @line, ptr %path)
  ret i32 0
none:
  ret i32 5
}
