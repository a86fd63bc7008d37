/* See README.md. */
#ifndef LIBC_STDIO_H
#define LIBC_STDIO_H
#include <stddef.h>
#include <sys/types.h>
typedef struct libc_file FILE;
extern FILE *stdin, *stdout, *stderr;
#define EOF (-1)
FILE *fopen(const char *name, const char *mode);
int fclose(FILE *file);
size_t fread(void *to, size_t size, size_t count, FILE *file);
size_t fwrite(const void *from, size_t size, size_t count, FILE *file);
char *fgets(char *to, int room, FILE *file);
ssize_t getline(char **line, size_t *room, FILE *file);
int fgetc(FILE *file);
int feof(FILE *file);
int ferror(FILE *file);
int fflush(FILE *file);
int printf(const char *format, ...) __attribute__((format(printf, 1, 2)));
int fprintf(FILE *file, const char *format, ...) __attribute__((format(printf, 2, 3)));
int snprintf(char *to, size_t room, const char *format, ...) __attribute__((format(printf, 3, 4)));
int puts(const char *line);
int putchar(int c);
int fputs(const char *text, FILE *file);
void perror(const char *text);
#endif
