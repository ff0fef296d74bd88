/* Lets one call of the system fail, and tells all of them. It is loaded before the C library:
 *
 *     FAIL=N FAIL_AFTER=M FAIL_LOG=FILE LD_PRELOAD=fail.so PROGRAM WORD..
 *
 * Calls that open, read, write and close are counted. Number N fails with EIO; where it writes, it writes M bytes, and
 * each later call that writes to the same place fails. FILE gets a line for each call: its first letter, the number of
 * the file, and of what opens the name, of what writes how many bytes there were to write.
 */
#define _GNU_SOURCE
#include <errno.h>
#include <fcntl.h>
#include <stdarg.h>
#include <stdio.h>
#include <stdlib.h>
#include <string.h>
#include <sys/syscall.h>
#include <unistd.h>

static long count, due, most;
static int told = -1, lost = -1;

__attribute__((constructor)) static void begin(void) {
    const char *word = getenv("FAIL_LOG");
    int file = word ? syscall(SYS_openat, AT_FDCWD, word, O_WRONLY | O_CREAT | O_APPEND | O_CLOEXEC, 0600) : -1;
    /* The files of the program keep the numbers that they would have. */
    if (file >= 0) told = fcntl(file, F_DUPFD_CLOEXEC, 200), syscall(SYS_close, file);
    if ((word = getenv("FAIL"))) due = atol(word);
    if ((word = getenv("FAIL_AFTER"))) most = atol(word);
}

static void tell(const char *form, ...) {
    char line[4400];
    va_list words;
    if (told < 0) return;
    va_start(words, form);
    int length = vsnprintf(line, sizeof line, form, words);
    va_end(words);
    if (syscall(SYS_write, told, line, length) != length) _exit(99);
}

static int refused(void) {
    if (++count != due) return 0;
    errno = EIO;
    return 1;
}

int open(const char *name, int flags, ...) {
    va_list words;
    va_start(words, flags);
    int mode = va_arg(words, int);
    va_end(words);
    int file = refused() ? -1 : syscall(SYS_openat, AT_FDCWD, name, flags, mode);
    int error = errno;
    tell("o %d %s\n", file, name);
    errno = error;
    return file;
}

ssize_t read(int file, void *to, size_t size) {
    tell("r %d\n", file);
    return refused() ? -1 : syscall(SYS_read, file, to, size);
}

ssize_t write(int file, const void *from, size_t size) {
    tell("w %d %zu\n", file, size);
    if (file == lost) {
        errno = EIO;
        return -1;
    }
    if (!refused()) return syscall(SYS_write, file, from, size);
    lost = file;
    return most ? syscall(SYS_write, file, from, (size_t)most < size ? (size_t)most : size) : -1;
}

int close(int file) {
    tell("c %d\n", file);
    if (file == lost) lost = -1;
    int answer = syscall(SYS_close, file);
    return refused() ? -1 : answer;
}
