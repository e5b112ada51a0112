/* What the bench needs of this header: the kit's clang brings none. */
#ifndef BENCH_STDDEF_H
#define BENCH_STDDEF_H
typedef __SIZE_TYPE__ size_t;
#endif
