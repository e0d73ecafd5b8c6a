/* Makes one allocation fail in the program that it is preloaded into (`LD_PRELOAD`), with the GNU C library: the
 * environment variable `REFUSE` has its number, from 1 on. When it fails, the file named by the variable `REFUSED` is
 * created. */
#include <errno.h>
#include <fcntl.h>
#include <stdlib.h>
#include <unistd.h>

void *__libc_malloc(size_t size);
void *__libc_realloc(void *memory, size_t size);

static unsigned long requests, refused;

__attribute__((constructor)) static void start(void)
{
    const char *number = getenv("REFUSE");
    refused = number ? strtoul(number, 0, 10) : 0;
    requests = 0;
}

static int is_refused(void)
{
    const char *name;
    requests += 1;
    if (requests != refused)
        return 0;
    name = getenv("REFUSED");
    if (name)
        close(open(name, O_WRONLY | O_CREAT, 0600));
    errno = ENOMEM;
    return 1;
}

void *malloc(size_t size)
{
    return is_refused() ? 0 : __libc_malloc(size);
}

void *realloc(void *memory, size_t size)
{
    return is_refused() ? 0 : __libc_realloc(memory, size);
}
