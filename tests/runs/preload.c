/* A preloaded library that lets chosen calls of a program fail, shows it another clock, and other lists of the system,
 * and looks for keys in the memory that it gives back. The variables that are numbers are below, with what they set; and these are not:
 *
 *   PRELOAD_COUNTS=F     a file that gets the counts below, each a 64-bit number
 *   PACE=N               a sleep ends at once; the monotonic clock advances by its length, and by N milliseconds with
 *                        each reading; if N is 0 it cannot be read
 *   PROC=FOLDER          an open of the list of locks, of the list of mounts, or of the description of an open file opens
 *                        `locks`, `mountinfo` or `fdinfo` in that folder, and the Nth one of the list of locks `N`, if
 *                        that is there; and each file has the number 0 on the device 0:0
 *
 * Only calls from the start of main on count, and of malloc, calloc and realloc only those by the program's own code.
 * The counts stand in a shared mapping, so they outlive the program however it ends. The program sees none of these
 * variables.
 */
#define _GNU_SOURCE
#include <dlfcn.h>
#include <errno.h>
#include <fcntl.h>
#include <malloc.h>
#include <stdarg.h>
#include <stdint.h>
#include <stdio.h>
#include <stdlib.h>
#include <string.h>
#include <sys/auxv.h>
#include <sys/mman.h>
#include <sys/stat.h>
#include <sys/syscall.h>
#include <sys/vfs.h>
#include <time.h>
#include <unistd.h>

extern void *__libc_malloc(size_t);
extern void *__libc_calloc(size_t, size_t);
extern void *__libc_realloc(void *, size_t);
extern void __libc_free(void *);

/* A kind of calls: how many were made, and which of them is not granted. */
static struct calls {
    uint64_t made, fail, take_none;
} requests, inputs, reads, writes, saves;

static uint64_t refuse_lasts, error, most, clock_seconds, clock_readings, fail_clock, pace, opening, keys;
static int is_paced;
static char *proc;

/* The requests for memory, the calls that were not granted, how many milliseconds were slept, and how many passed, where
 * time passes by itself, and the blocks that were given back. */
static struct counts {
    uint64_t requests, failures, slept, passed, freed;
} unshared, *counts = &unshared;

/* Whether main has begun. */
static int in_main;
static void *program_start;

/* Returns where the object of an address begins. */
static void *start_of(void *address) {
    Dl_info found = {0};
    dladdr(address, &found);
    return found.dli_fbase;
}

/* Counts a request for memory, and says whether it is refused. */
static int refuses(void *caller) {
    if (!in_main || start_of(caller) != program_start)
        return 0;
    counts->requests++;
    requests.made++;
    if (requests.fail == 0 || requests.made < requests.fail || (requests.made > requests.fail && !refuse_lasts))
        return 0;
    counts->failures++;
    errno = ENOMEM;
    return 1;
}

void *malloc(size_t size) {
    return refuses(__builtin_return_address(0)) ? NULL : __libc_malloc(size);
}

void *calloc(size_t count, size_t size) {
    return refuses(__builtin_return_address(0)) ? NULL : __libc_calloc(count, size);
}

/* Ends the program where a block that it gives back holds a key, which is the bytes 0 to 15, as the tests have them. */
static void look(void *block) {
    unsigned char *byte = block;
    size_t len = block && keys ? malloc_usable_size(block) : 0, run = 0;
    counts->freed += len > 0;
    for (size_t at = 0; at < len; at++) {
        run = byte[at] == run ? run + 1 : byte[at] == 0;
        if (run == 16)
            _exit(98);
    }
}

void free(void *block) {
    look(block);
    __libc_free(block);
}

void *realloc(void *old, size_t size) {
    look(old);
    return refuses(__builtin_return_address(0)) ? NULL : __libc_realloc(old, size);
}

/* Counts a call, and says whether it is granted; if not, what it answers instead. */
static int grants(struct calls *calls, ssize_t *answer) {
    calls->made++;
    if (calls->made != calls->fail && calls->made != calls->take_none)
        return 1;
    counts->failures++;
    errno = error ? (int)error : EIO;
    *answer = calls->made == calls->fail ? -1 : 0;
    return 0;
}

static size_t at_most(size_t size) { return in_main && most != 0 && size > most ? most : size; }

/* Whether a file is one of those in which the system tells of itself. */
static int is_of_system(int fd) {
    struct statfs found;
    return fstatfs(fd, &found) == 0 && found.f_type == 0x9fa0;
}

ssize_t read(int fd, void *bytes, size_t size) {
    ssize_t answer;
    if (is_of_system(fd))
        return syscall(SYS_read, fd, bytes, size);
    if (in_main && !grants(fd == STDIN_FILENO ? &inputs : &reads, &answer))
        return answer;
    return syscall(SYS_read, fd, bytes, at_most(size));
}

ssize_t write(int fd, const void *bytes, size_t size) {
    ssize_t answer;
    if (in_main && fd != STDERR_FILENO && !grants(fd == STDOUT_FILENO ? &writes : &saves, &answer))
        return answer;
    return syscall(SYS_write, fd, bytes, at_most(size));
}

/* A write to a place of a file, under both of its names. */
ssize_t pwrite64(int fd, const void *bytes, size_t size, off64_t at) {
    ssize_t answer;
    if (in_main && !grants(&saves, &answer))
        return answer;
    return syscall(SYS_pwrite64, fd, bytes, at_most(size), at);
}

ssize_t pwrite(int fd, const void *bytes, size_t size, off_t at) { return pwrite64(fd, bytes, size, at); }

/* Reads the clock that advances only by sleeps and readings. */
static int read_paced(struct timespec *time) {
    counts->passed += pace;
    time->tv_sec = (time_t)(counts->passed / 1000);
    time->tv_nsec = (long)(counts->passed % 1000 * 1000000);
    errno = EINVAL;
    return pace ? 0 : -1;
}

int clock_gettime(clockid_t clock, struct timespec *time) {
    if (in_main && is_paced && clock == CLOCK_MONOTONIC)
        return read_paced(time);
    if (!in_main || clock != CLOCK_REALTIME || (clock_seconds == 0 && !fail_clock))
        return (int)syscall(SYS_clock_gettime, clock, time);
    int fails = fail_clock && ++clock_readings >= fail_clock;
    counts->failures += (uint64_t)fails;
    errno = EINVAL;
    time->tv_sec = (time_t)clock_seconds;
    time->tv_nsec = 999999999;
    return -fails;
}

/* MIT's programs read the clock by this call. */
time_t time(time_t *seconds) {
    struct timespec now;
    time_t found = clock_gettime(CLOCK_REALTIME, &now) == 0 ? now.tv_sec : -1;
    if (seconds)
        *seconds = found;
    return found;
}

int nanosleep(const struct timespec *asked, struct timespec *left) {
    if (!in_main || !is_paced)
        return (int)syscall(SYS_nanosleep, asked, left);
    uint64_t slept = (uint64_t)asked->tv_sec * 1000 + (uint64_t)asked->tv_nsec / 1000000;
    counts->slept += slept;
    counts->passed += slept;
    return 0;
}

/* Returns the file that is opened for that of a path, whose name is written there if it is another. */
static const char *file_for(const char *path, char other[4096]) {
    static uint64_t readings;
    int is_list = strcmp(path, "/proc/locks") == 0;
    int is_open_file = strncmp(path, "/proc/self/fdinfo/", 18) == 0;
    if (!in_main || !proc || !(is_list || is_open_file || strcmp(path, "/proc/self/mountinfo") == 0))
        return path;
    snprintf(other, 4096, "%s/%lu", proc, (unsigned long)(readings += (uint64_t)is_list));
    if (!is_list || access(other, F_OK) != 0)
        snprintf(other, 4096, "%s/%s", proc, is_list ? "locks" : is_open_file ? "fdinfo" : "mountinfo");
    return other;
}

int open(const char *path, int flags, ...) {
    char other[4096];
    va_list more;
    va_start(more, flags);
    mode_t mode = flags & O_CREAT ? va_arg(more, mode_t) : 0;
    va_end(more);
    counts->passed += (flags & O_ACCMODE) == O_RDONLY ? 0 : opening;
    return (int)syscall(SYS_openat, AT_FDCWD, file_for(path, other), flags, mode);
}

int statx(int folder, const char *path, int flags, unsigned mask, struct statx *found) {
    int answer = (int)syscall(SYS_statx, folder, path, flags, mask, found);
    if (in_main && proc && answer == 0)
        found->stx_ino = found->stx_dev_major = found->stx_dev_minor = 0;
    return answer;
}

/* Takes a number out of the environment; 0 where it is not there. */
static uint64_t taken(const char *name) {
    const char *text = getenv(name);
    uint64_t value = text ? strtoull(text, NULL, 10) : 0;
    unsetenv(name);
    return value;
}

/* Lets the counts stand in that file. */
static void share_counts(const char *file) {
    int fd = open(file, O_RDWR | O_CREAT | O_CLOEXEC, 0600);
    if (fd < 0 || ftruncate(fd, sizeof *counts) != 0)
        _exit(125);
    void *page = mmap(NULL, sizeof *counts, PROT_READ | PROT_WRITE, MAP_SHARED, fd, 0);
    if (page == MAP_FAILED)
        _exit(125);
    close(fd);
    counts = page;
}

/* The variables that are numbers, and what they set. */
static const struct {
    const char *name;
    uint64_t *value;
} settings[] = {
    {"REFUSE", &requests.fail},        /* the Nth request for memory is refused */
    {"REFUSE_LASTS", &refuse_lasts},   /* if it is 1, each request after it is refused too */
    {"FAIL_INPUT", &inputs.fail},      /* the Nth read from the standard input fails */
    {"FAIL_READ", &reads.fail},        /* the Nth read from a file fails; the system's own files do not count */
    {"FAIL_WRITE", &writes.fail},      /* the Nth write to the standard output fails */
    {"ZERO_WRITE", &writes.take_none}, /* the Nth write to the standard output takes no byte */
    {"FAIL_SAVE", &saves.fail},        /* the Nth write to a file fails */
    {"ZERO_SAVE", &saves.take_none},   /* the Nth write to a file takes no byte */
    {"ERROR", &error},                 /* a call that fails has the error of that number, and not EIO */
    {"MOST", &most},                   /* each read and each write moves at most N bytes */
    {"CLOCK", &clock_seconds},         /* the clock has N seconds since 1970, as a signed 64-bit number */
    {"FAIL_CLOCK", &fail_clock},       /* the Nth reading of the clock fails, and each after it */
    {"OPENING", &opening},             /* the monotonic clock advances by N milliseconds with each open to write */
    {"KEYS", &keys},                   /* if it is 1, a block that is given back may hold no key */
};

/* Takes the variables. The program's main is next. */
__attribute__((constructor)) static void begin(void) {
    const char *file = getenv("PRELOAD_COUNTS");
    program_start = start_of((void *)getauxval(AT_ENTRY));
    if (file)
        share_counts(file);
    unsetenv("PRELOAD_COUNTS");
    unsetenv("LD_PRELOAD");
    for (size_t i = 0; i < sizeof settings / sizeof *settings; i++)
        *settings[i].value = taken(settings[i].name);
    is_paced = getenv("PACE") != NULL;
    pace = taken("PACE");
    proc = getenv("PROC") ? strdup(getenv("PROC")) : NULL;
    unsetenv("PROC");
    in_main = 1;
}
