/* See README.md. */
#ifndef LIBC_ERRNO_H
#define LIBC_ERRNO_H
#define ENOMEM 12
int *__errno_location(void);
#define errno (*__errno_location())
#endif
