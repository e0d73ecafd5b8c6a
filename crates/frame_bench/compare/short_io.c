/* Shortens each read of standard input and each write to standard output, or makes it fail, in the program that it is
 * preloaded into (`LD_PRELOAD`), with the GNU C library. The environment variables `READS` and `WRITES` have an integer
 * for each call: the maximum number of bytes that the call reads or writes, or the negated number of its error. The last
 * integer is for all further calls, too. Without a variable, no call is changed. At the end of the program the numbers
 * of both calls are written to the file named by the variable `CALLS`. */
#include <errno.h>
#include <limits.h>
#include <stdio.h>
#include <stdlib.h>
#include <unistd.h>

ssize_t __read(int file, void *bytes, size_t size);
ssize_t __write(int file, const void *bytes, size_t size);

struct results {
    const char *rest;
    long last;
    unsigned long calls;
};

static struct results reads, writes;

static void begin(struct results *results, const char *variable)
{
    results->rest = getenv(variable);
    results->last = LONG_MAX;
    results->calls = 0;
}

__attribute__((constructor)) static void start(void)
{
    begin(&reads, "READS");
    begin(&writes, "WRITES");
}

__attribute__((destructor)) static void report(void)
{
    const char *name = getenv("CALLS");
    FILE *file = name ? fopen(name, "w") : 0;
    if (file) {
        fprintf(file, "%lu %lu\n", reads.calls, writes.calls);
        fclose(file);
    }
}

/* Returns the integer for the next call. */
static long next(struct results *results)
{
    if (results->rest) {
        char *end;
        long result = strtol(results->rest, &end, 10);
        if (end != results->rest) {
            results->last = result;
            results->rest = end;
        }
    }
    results->calls += 1;
    return results->last;
}

/* Returns the number of bytes that the next call reads or writes at most, or -1 if it fails. */
static ssize_t count_of(struct results *results, size_t size)
{
    long result = next(results);
    if (result < 0) {
        errno = (int)-result;
        return -1;
    }
    return (size_t)result < size ? (ssize_t)result : (ssize_t)size;
}

ssize_t read(int file, void *bytes, size_t size)
{
    ssize_t count = file == STDIN_FILENO ? count_of(&reads, size) : (ssize_t)size;
    return count > 0 ? __read(file, bytes, (size_t)count) : count;
}

ssize_t write(int file, const void *bytes, size_t size)
{
    ssize_t count = file == STDOUT_FILENO ? count_of(&writes, size) : (ssize_t)size;
    return count > 0 ? __write(file, bytes, (size_t)count) : count;
}
