/* read and write of a program under test: each moves at most 40 bytes, and the call whose number FAILING_READ or FAILING_WRITE names first
 * answers -1 with the error that stands behind it, as in "2 5". Writes to standard error are left alone. */
#define _GNU_SOURCE
#include <dlfcn.h>
#include <errno.h>
#include <stdio.h>
#include <stdlib.h>
#include <unistd.h>

enum { PART = 40 };

static int fails(const char *name, int call)
{
    const char *plan = getenv(name);
    int number = 0, error = 0;
    if (plan == NULL || sscanf(plan, "%d %d", &number, &error) != 2 || number != call)
        return 0;
    errno = error;
    return 1;
}

ssize_t read(int fd, void *buf, size_t n)
{
    static int calls;
    ssize_t (*system_read)(int, void *, size_t) = (ssize_t(*)(int, void *, size_t))dlsym(RTLD_NEXT, "read");
    if (fails("FAILING_READ", ++calls))
        return -1;
    return system_read(fd, buf, n < PART ? n : PART);
}

ssize_t write(int fd, const void *buf, size_t n)
{
    static int calls;
    ssize_t (*system_write)(int, const void *, size_t) = (ssize_t(*)(int, const void *, size_t))dlsym(RTLD_NEXT, "write");
    if (fd == STDERR_FILENO)
        return system_write(fd, buf, n);
    if (fails("FAILING_WRITE", ++calls))
        return -1;
    return system_write(fd, buf, n < PART ? n : PART);
}
