// Stands before the C library: what is read from the standard input counts as undefined, and what is written as defined.
#include <sys/syscall.h>
#include <unistd.h>
#include <valgrind/memcheck.h>

ssize_t read(int file, void *bytes, size_t count)
{
    ssize_t done = syscall(SYS_read, file, bytes, count);
    if (file == STDIN_FILENO && done > 0)
        VALGRIND_MAKE_MEM_UNDEFINED(bytes, done);
    return done;
}

ssize_t write(int file, const void *bytes, size_t count)
{
    VALGRIND_MAKE_MEM_DEFINED(bytes, count);
    return syscall(SYS_write, file, bytes, count);
}
