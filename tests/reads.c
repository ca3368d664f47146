/* In place of the C library's read, for tests/failing: each read does what the next number of the variable READS says. One above 0 reads that many bytes at most,
 * one below 0 fails with that errno. Behind the last number a read is as ever. */
#include <errno.h>
#include <stdlib.h>
#include <sys/syscall.h>
#include <unistd.h>

ssize_t read(int file, void *room, size_t size)
{
    static const char *next;
    char *behind;
    if (!next)
        next = getenv("READS");
    long number = strtol(next, &behind, 10);
    next = behind;
    if (number < 0) {
        errno = (int)-number;
        return -1;
    }
    return syscall(SYS_read, file, room, number > 0 && (size_t)number < size ? (size_t)number : size);
}
