/* A program that is run with a pipe to its standard input and one from its standard output. */
#ifndef CHILD_H
#define CHILD_H

#include <stdbool.h>
#include <stddef.h>
#include <stdint.h>
#include <sys/types.h>

typedef struct child {
    pid_t id;
    int in, out; /* our ends of the pipes */
    bool ended;  /* it was seen to have ended, while its input was open */
} child;

/* Each of these ends this program with a message where the system refuses something, or the child has not ended after a minute: the message has the
 * number of its case. */
void child_start(child *c, const char *program, unsigned number);

/* Gives it bytes; false if it has ended before it took them. */
bool child_feed(child *c, const uint8_t *bytes, size_t count);

/* Waits until it has taken all bytes that it was given; false if it has ended. */
bool child_drains(child *c);

/* Waits until it has, and sleeps until there are more; false if it has ended. */
bool child_waits(child *c);

/* How many bytes it has printed that were not read yet. */
size_t child_printed(const child *c);

/* Ends its input, and reads what it prints to the end: how many bytes, at most `most`. Its exit status, and its peak memory in KiB. */
size_t child_finish(child *c, char *text, size_t most, int *status, long *peak);

#endif
