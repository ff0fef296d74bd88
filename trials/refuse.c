/* Refuses allocations of a program one at a time, in one run. It is loaded before the C library:
 *
 *     REFUSE=FOLDER LD_PRELOAD=refuse.so PROGRAM WORD.. > OUTPUT
 *
 * At each allocation from number REFUSE_FROM (1) on, each REFUSE_STEP-th (1), the run is forked. In the child that one
 * allocation fails and each later one is answered; its output is a copy of what was written so far, and its folder one
 * with copies of the files, both in FOLDER/N. The run itself waits and goes on with all its memory. FOLDER/log gets a
 * line for each: the number, the status (256 and more: the signal), how many bytes the child wrote, whether they are
 * the first ones of FOLDER/wanted, and the sum over the files before the fork and after the child. The last line, with
 * the number 0, says how many allocations there were. A child whose bytes are the wanted ones leaves nothing.
 *
 * With REFUSE_AGAIN=FILE a child reads that file, from its start, in place of the standard input, and each child leaves
 * its folder.
 */
#define _GNU_SOURCE
#include <dirent.h>
#include <errno.h>
#include <fcntl.h>
#include <stddef.h>
#include <stdint.h>
#include <stdio.h>
#include <stdlib.h>
#include <string.h>
#include <sys/mman.h>
#include <sys/stat.h>
#include <sys/wait.h>
#include <unistd.h>

extern void *__libc_malloc(size_t);
extern void *__libc_calloc(size_t, size_t);
extern void *__libc_realloc(void *, size_t);
extern void *__libc_memalign(size_t, size_t);

enum { SECONDS = 60 };
static int armed, log_file, own;
static uint64_t count, from = 1, step = 1;
static char base[4096];
static const char *again;
static const unsigned char *wanted;
static size_t wanted_len;

static uint64_t mixed(uint64_t h, const unsigned char *p, size_t n) {
    for (size_t i = 0; i < n; i++) h = (h ^ p[i]) * 1099511628211u;
    return h;
}

/* The bytes of a file, mapped; none where there are none. */
static const unsigned char *mapped(const char *name, size_t *len) {
    struct stat s;
    int f = open(name, O_RDONLY);
    const unsigned char *p = NULL;
    *len = 0;
    if (f >= 0 && !fstat(f, &s) && s.st_size > 0) {
        p = mmap(NULL, s.st_size, PROT_READ, MAP_PRIVATE, f, 0);
        *len = p == MAP_FAILED ? 0 : s.st_size;
    }
    if (f >= 0) close(f);
    return *len ? p : NULL;
}

static void copy(const char *name, const char *to) {
    size_t len;
    const unsigned char *p = mapped(name, &len);
    int f = open(to, O_WRONLY | O_CREAT | O_TRUNC, 0600);
    for (size_t at = 0; at < len;) {
        ssize_t n = write(f, p + at, len - at);
        if (n <= 0) _exit(98);
        at += n;
    }
    close(f);
    if (p) munmap((void *)p, len);
}

/* The sum over the files of a folder, by names and bytes. With a folder to copy to, they are copied. With none left
 * they are removed. */
static uint64_t files(const char *folder, const char *to, int removes) {
    char name[8192], other[8192];
    uint64_t sum = 0;
    DIR *d = opendir(folder);
    for (struct dirent *e; d && (e = readdir(d));) {
        if (e->d_name[0] == '.' || !strcmp(e->d_name, "%out")) continue;
        snprintf(name, sizeof name, "%s/%s", folder, e->d_name);
        if (removes) {
            unlink(name);
        } else if (to) {
            snprintf(other, sizeof other, "%s/%s", to, e->d_name);
            copy(name, other);
        } else {
            size_t len;
            const unsigned char *p = mapped(name, &len);
            uint64_t h = mixed(14695981039346656037u, (const unsigned char *)e->d_name, strlen(e->d_name) + 1);
            sum += mixed(h, p, len);
            if (p) munmap((void *)p, len);
        }
    }
    if (d) closedir(d);
    return sum;
}

static void enter(const char *folder) {
    char out[4200];
    unsigned char block[65536];
    off_t at = 0, len = lseek(1, 0, SEEK_CUR);
    mkdir(folder, 0700);
    files(".", folder, 0);
    snprintf(out, sizeof out, "%s/%%out", folder);
    int f = open(out, O_RDWR | O_CREAT | O_TRUNC, 0600);
    while (at < len) {
        ssize_t n = pread(own, block, len - at < (off_t)sizeof block ? (size_t)(len - at) : sizeof block, at);
        if (n <= 0 || write(f, block, n) != n) _exit(98);
        at += n;
    }
    if (dup2(f, 1) < 0 || chdir(folder)) _exit(98);
    if (again && dup2(open(again, O_RDONLY), 0) < 0) _exit(98);
    alarm(SECONDS);
}

static void record(const char *folder, int status, uint64_t before) {
    char out[4200], line[200];
    size_t len;
    snprintf(out, sizeof out, "%s/%%out", folder);
    const unsigned char *p = mapped(out, &len);
    int same = len <= wanted_len && !memcmp(p ? p : (const unsigned char *)"", wanted ? wanted : (const unsigned char *)"", len);
    if (p) munmap((void *)p, len);
    int said = WIFEXITED(status) ? WEXITSTATUS(status) : 256 + WTERMSIG(status);
    int n = snprintf(line, sizeof line, "%lu %d %zu %d %lx %lx\n", count, said, len, same, before, files(folder, NULL, 0));
    if (write(log_file, line, n) != n) _exit(99);
    if (!again && same && (said == 0 || said == 1)) {
        files(folder, NULL, 1);
        unlink(out);
        rmdir(folder);
    }
}

static int refused(void) {
    if (!armed) return 0;
    count++;
    if (count < from || (count - from) % step) return 0;
    armed = 0;
    char folder[4160];
    snprintf(folder, sizeof folder, "%s/%lu", base, count);
    uint64_t before = files(".", NULL, 0);
    pid_t child = fork();
    if (child < 0) _exit(97);
    if (child == 0) {
        enter(folder);
        return 1;
    }
    int status;
    while (waitpid(child, &status, 0) < 0)
        if (errno != EINTR) _exit(97);
    record(folder, status, before);
    armed = 1;
    return 0;
}

__attribute__((constructor)) static void begin(void) {
    char name[4200];
    const char *given = getenv("REFUSE"), *n;
    if (!given) return;
    snprintf(base, sizeof base, "%s", given);
    if ((n = getenv("REFUSE_FROM"))) from = strtoull(n, NULL, 10);
    if ((n = getenv("REFUSE_STEP"))) step = strtoull(n, NULL, 10);
    again = getenv("REFUSE_AGAIN");
    snprintf(name, sizeof name, "%s/wanted", base);
    wanted = mapped(name, &wanted_len);
    snprintf(name, sizeof name, "%s/log", base);
    log_file = open(name, O_WRONLY | O_CREAT | O_TRUNC | O_APPEND, 0600);
    /* The program's output may be open for writing alone. */
    own = open("/proc/self/fd/1", O_RDONLY);
    armed = 1;
}

__attribute__((destructor)) static void end(void) {
    char line[100];
    if (!armed) return;
    armed = 0;
    int n = snprintf(line, sizeof line, "0 0 %lu 1 0 %lx\n", count, files(".", NULL, 0));
    if (write(log_file, line, n) != n) _exit(99);
}

void *malloc(size_t n) {
    if (refused()) return errno = ENOMEM, NULL;
    return __libc_malloc(n);
}

void *calloc(size_t k, size_t n) {
    if (refused()) return errno = ENOMEM, NULL;
    return __libc_calloc(k, n);
}

void *realloc(void *p, size_t n) {
    if (refused()) return errno = ENOMEM, NULL;
    return __libc_realloc(p, n);
}

void *aligned_alloc(size_t a, size_t n) {
    if (refused()) return errno = ENOMEM, NULL;
    return __libc_memalign(a, n);
}

void *memalign(size_t a, size_t n) { return aligned_alloc(a, n); }

int posix_memalign(void **to, size_t a, size_t n) {
    if (refused()) return ENOMEM;
    return (*to = __libc_memalign(a, n)) ? 0 : ENOMEM;
}
