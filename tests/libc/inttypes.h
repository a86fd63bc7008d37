/* See README.md. */
#ifndef LIBC_INTTYPES_H
#define LIBC_INTTYPES_H
#include <stdint.h>
#define PRId64 "ld"
#define PRIu64 "lu"
#define PRIx64 "lx"
#endif
