/* The disk and the power of a box under test: linked into it with the linker's --wrap, which puts these calls in the place of the system's.
 * BOX_POWER is a number and `early` or `late`. The disk keeps what is written from the fsync of its file on, and no byte before. A new name it
 * keeps at once (early), or from the next fsync on that is of another file, the folder's (late): a file system may do either. The power goes
 * at the moment of that number, counted from 1: before each call, and in the middle of an fsync, with half the bytes kept. C99 and POSIX. */
#include <signal.h>
#include <stdlib.h>
#include <string.h>
#include <sys/socket.h>
#include <sys/stat.h>
#include <unistd.h>

ssize_t __real_write(int file, const void *bytes, size_t size);
int __real_fsync(int file);
int __real_rename(const char *from, const char *to);
ssize_t __real_send(int fd, const void *bytes, size_t size, int flags);

static char held[4096]; /* written to held_file, and not yet kept */
static size_t held_size;
static int held_file = -1;
static char held_from[4096], held_to[4096]; /* a new name that is not yet kept; none where held_to is empty */

static const char *power(void) {
    const char *given = getenv("BOX_POWER");
    return given != NULL ? given : "0 late";
}

static void moment(void) {
    static int number;
    if (++number == atoi(power())) kill(getpid(), SIGKILL);
}

ssize_t __wrap_write(int file, const void *bytes, size_t size) {
    struct stat is;
    moment();
    if (fstat(file, &is) != 0 || !S_ISREG(is.st_mode)) return __real_write(file, bytes, size);
    if (file != held_file) held_size = 0;
    if (size > sizeof held - held_size) abort();
    memcpy(held + held_size, bytes, size);
    held_size += size;
    held_file = file;
    return (ssize_t)size;
}

static void keep(const char *bytes, size_t size) {
    if (__real_write(held_file, bytes, size) != (ssize_t)size) abort();
}

int __wrap_fsync(int file) {
    moment();
    if (file == held_file) {
        keep(held, held_size / 2);
        moment();
        keep(held + held_size / 2, held_size - held_size / 2);
        held_file = -1;
    } else if (held_to[0] != 0) {
        if (__real_rename(held_from, held_to) != 0) abort();
        held_to[0] = 0;
    }
    return __real_fsync(file);
}

int __wrap_rename(const char *from, const char *to) {
    moment();
    if (strstr(power(), "early") != NULL) return __real_rename(from, to);
    if (strlen(from) >= sizeof held_from || strlen(to) >= sizeof held_to) abort();
    strcpy(held_from, from);
    strcpy(held_to, to);
    return 0;
}

ssize_t __wrap_send(int fd, const void *bytes, size_t size, int flags) {
    moment();
    return __real_send(fd, bytes, size, flags);
}
