<?php
// PHP's FFI over this library: integers, floats, a struct as a result, and a closure that C calls.
$c = FFI::cdef('typedef struct { int quot; int rem; } div_t; div_t div(int, int); size_t strlen(const char *);
    void qsort(void *, size_t, size_t, int (*)(const int *, const int *));', 'libc.so.6');
$m = FFI::cdef('double pow(double, double); float fabsf(float);', 'libm.so.6');
$both = $c->div(-17, 5);
if ($both->quot !== -3 || $both->rem !== -2 || $c->strlen('seven..') !== 7) exit(1);
if ($m->pow(1.5, 2.0) !== 2.25 || $m->fabsf(-0.5) !== 0.5) exit(2);
$numbers = FFI::new('int[4]');
foreach ([5, -3, 9, 0] as $at => $number) $numbers[$at] = $number;
$c->qsort(FFI::addr($numbers), 4, 4, fn($a, $b) => $a[0] <=> $b[0]);
for ($at = 0; $at < 4; $at++) if ($numbers[$at] !== [-3, 0, 5, 9][$at]) exit(3);
preg_match_all('/\S*libffi\S*/', file_get_contents('/proc/self/maps'), $found);
echo implode("\n", array_unique($found[0])), "\n";
