// What a program of a contest may call. There is no C library: the machine has three calls, and the rest is contest.c.
#ifndef CONTEST_H
#define CONTEST_H

#include <stddef.h>
#include <stdint.h>

// The machine's calls, which have the numbers of Linux. A read gives fewer bytes only at the end of the input, and 0
// there; both give -1 at a descriptor that is not known. A program reads 0 and writes 1; what it writes to 2 is let go.
// A validator also reads 3 (the input), 4 (the answer) and 5 (the flags).
long read(int descriptor, void *bytes, size_t length);
long write(int descriptor, const void *bytes, size_t length);

// Writes what the functions below have kept back, and ends the program. 0 is success. `main` may also return.
void exit(int status) __attribute__((noreturn));

// The input, through a buffer. `read_from` changes the descriptor; what was in the buffer is let go.
void read_from(int descriptor);
int read_char(void);                         // the next byte, or -1 at the end
long read_line(char *line, long room);       // without its line feed, ended by 0; its length, or -1 at the end
long read_word(char *word, long room);       // the next word, ended by 0; its length, or 0 at the end
int read_int(int32_t *number);               // 1, or 0 where the next word is no number in range, or there is none
int read_int64(int64_t *number);

// The output, through a buffer that `exit` writes.
void write_char(char c);
void write_text(const char *text);
void write_int(int32_t number);
void write_int64(int64_t number);
void write_uint64(uint64_t number);
void flush(void);                            // writes the buffer now

// What the compiler may call.
void *memcpy(void *to, const void *from, size_t length);
void *memmove(void *to, const void *from, size_t length);
void *memset(void *to, int byte, size_t length);
int memcmp(const void *a, const void *b, size_t length);

#endif
