#define API extern __attribute__((visibility("default")))
typedef unsigned long part_size;
API int part_of(part_size count);
