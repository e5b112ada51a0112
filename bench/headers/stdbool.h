/* What the bench needs of this header: the kit's clang brings none. */
#ifndef BENCH_STDBOOL_H
#define BENCH_STDBOOL_H
#define bool _Bool
#define true 1
#define false 0
#endif
