/* Stands before the system's open, read, write and close of a program under test (LD_PRELOAD): fails, cuts and interrupts calls as the
 * environment asks, and writes down every call. A file goes by the last part of its path, descriptors 1 and 2 by `stdout` and `stderr`.
 *
 *   FAULTS_LOG=FILE              a line for each call goes to the end of FILE: what, name, asked (bytes; 0 for open and close), answered, errno
 *   FAULTS_READ=NAME,K,E,N       read K of NAME fails with errno E, and so do those after it: N of them in all
 *   FAULTS_WRITE=NAME,K,E,N      the same of writes
 *   FAULTS_INTERRUPTS=N,M        before every N-th read of a file, M reads in a row answer EINTR; these count as no reads in what is above
 *   FAULTS_READ_SIZES=A,B,..     reads of files are cut to at most A, B, .. bytes in turn, round and round
 *   FAULTS_WRITE_SIZES=A,B,..    the same of writes to descriptor 1
 *
 * A run of more than a million calls is ended: it would not end by itself. */
#define _GNU_SOURCE
#include <errno.h>
#include <fcntl.h>
#include <stdarg.h>
#include <stdio.h>
#include <stdlib.h>
#include <string.h>
#include <sys/syscall.h>
#include <unistd.h>

enum { FILES = 64, NUMBERS = 256, CALLS = 1000000 };

/* What is known of a descriptor. */
struct file {
    char name[64];
    long reads, writes, interrupted;
};

/* A variable: a name, where it begins with one, and numbers. */
struct wish {
    char name[64];
    long numbers[NUMBERS], count;
};

static struct file files[FILES] = {[1] = {.name = "stdout"}, [2] = {.name = "stderr"}};
static struct file unknown = {.name = "none"};
static struct wish read_fault, write_fault, interrupts, read_sizes, write_sizes;

static void parse(struct wish *wish, const char *variable, int named)
{
    const char *at = getenv(variable);
    if (!at)
        return;
    if (named) {
        snprintf(wish->name, sizeof wish->name, "%.*s", (int)strcspn(at, ","), at);
        at += strcspn(at, ",");
        at += *at == ',';
    }
    while (*at && wish->count < NUMBERS) {
        char *end;
        wish->numbers[wish->count++] = strtol(at, &end, 10);
        if (end == at || (*end && *end != ','))
            abort(); /* no number: the test is wrong */
        at = end + (*end == ',');
    }
}

__attribute__((constructor)) static void parse_all(void)
{
    parse(&read_fault, "FAULTS_READ", 1);
    parse(&write_fault, "FAULTS_WRITE", 1);
    parse(&interrupts, "FAULTS_INTERRUPTS", 0);
    parse(&read_sizes, "FAULTS_READ_SIZES", 0);
    parse(&write_sizes, "FAULTS_WRITE_SIZES", 0);
}

static struct file *known(int fd)
{
    return fd >= 0 && fd < FILES && files[fd].name[0] ? &files[fd] : &unknown;
}

/* Writes the call down and answers what it answered, with errno as it was. */
static long told(const char *what, const char *name, size_t asked, long answer)
{
    static long log = -1, calls;
    const char *path = getenv("FAULTS_LOG");
    int error = errno;
    char line[160];
    int size = snprintf(line, sizeof line, "%s %s %zu %ld %d\n", what, name, asked, answer, answer < 0 ? error : 0);
    if (path && log < 0)
        log = syscall(SYS_openat, AT_FDCWD, path, O_WRONLY | O_CREAT | O_APPEND | O_CLOEXEC, 0600);
    if (++calls > CALLS || (path && syscall(SYS_write, log, line, size) != size))
        abort(); /* and a run without its log shows nothing */
    errno = error;
    return answer;
}

/* Whether the k-th call on this file is one that was asked to fail; then errno is set. */
static int fails(const struct wish *wish, const struct file *file, long k)
{
    if (wish->count != 3 || strcmp(wish->name, file->name) || k < wish->numbers[0] || k - wish->numbers[0] >= wish->numbers[2])
        return 0;
    errno = (int)wish->numbers[1];
    return 1;
}

/* How much of what is asked the k-th call gets. */
static size_t cut(const struct wish *sizes, long k, size_t asked)
{
    size_t most = sizes->count ? (size_t)sizes->numbers[(k - 1) % sizes->count] : asked;
    return asked < most ? asked : most;
}

int open(const char *path, int flags, ...)
{
    va_list more;
    va_start(more, flags);
    int mode = flags & O_CREAT ? va_arg(more, int) : 0;
    va_end(more);
    const char *slash = strrchr(path, '/'), *name = slash ? slash + 1 : path;
    long fd = syscall(SYS_openat, AT_FDCWD, path, flags, mode);
    if (fd >= 0 && fd < FILES) {
        files[fd] = (struct file){.reads = 0};
        snprintf(files[fd].name, sizeof files[fd].name, "%s", name);
    }
    return (int)told("open", name, 0, fd);
}

ssize_t read(int fd, void *bytes, size_t asked)
{
    struct file *file = known(fd);
    long k = file->reads + 1, answer = -1;
    if (interrupts.count == 2 && k % interrupts.numbers[0] == 0 && file->interrupted < interrupts.numbers[1]) {
        file->interrupted++;
        errno = EINTR;
    } else {
        file->interrupted = 0;
        file->reads = k;
        if (!fails(&read_fault, file, k))
            answer = syscall(SYS_read, fd, bytes, cut(&read_sizes, k, asked));
    }
    return told("read", file->name, asked, answer);
}

ssize_t write(int fd, const void *bytes, size_t asked)
{
    struct file *file = known(fd);
    long k = ++file->writes, answer = -1;
    if (!fails(&write_fault, file, k))
        answer = syscall(SYS_write, fd, bytes, fd == STDOUT_FILENO ? cut(&write_sizes, k, asked) : asked);
    return told("write", file->name, asked, answer);
}

int close(int fd)
{
    long answer = told("close", known(fd)->name, 0, syscall(SYS_close, fd));
    if (answer == 0 && fd < FILES)
        files[fd].name[0] = 0;
    return (int)answer;
}
