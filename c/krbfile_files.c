/* Holds files by the program krbfile(1), through a socket that is its input and its output. */
#define _GNU_SOURCE 1
#include "krbfile_files.h"

#include <ctype.h>
#include <errno.h>
#include <fcntl.h>
#include <signal.h>
#include <spawn.h>
#include <stdio.h>
#include <stdlib.h>
#include <string.h>
#include <sys/socket.h>
#include <sys/wait.h>
#include <unistd.h>

#define MOST_BYTES 16777216u /* of an image */
#define LINE 64              /* more than a line of the program has */

/* What is known without a line of the program before a whole image was sent to it. */
#define NO_LINE (KRBF_ERRNO + EIO)

struct krbf_edit {
    pid_t maker, program;
    int socket;
    size_t len;
    uint8_t image[];
};

/* The names of errno.h that the program writes, but for EIO. */
#define NAMED(name) {#name, name}
static const struct {
    const char *name;
    int number;
} CAUSES[] = {
    NAMED(EACCES), NAMED(EAGAIN), NAMED(EBADMSG), NAMED(EBUSY), NAMED(EDQUOT), NAMED(EEXIST), NAMED(EFBIG),
    NAMED(EILSEQ), NAMED(EINTR), NAMED(EINVAL), NAMED(EISDIR), NAMED(ELOOP), NAMED(ENAMETOOLONG), NAMED(ENOENT),
    NAMED(ENOLCK), NAMED(ENOMEM), NAMED(ENOSPC), NAMED(ENOTDIR), NAMED(EPERM), NAMED(EPIPE), NAMED(EROFS),
    NAMED(ESTALE),
};

/* Sends the bytes, or receives as many where none are given. Returns 1 once that is done, or 0 if the program ended. It
 * raises no SIGPIPE. */
static int move(int socket, const void *bytes, void *to, size_t len) {
    for (size_t at = 0; at < len;) {
        ssize_t moved = bytes ? send(socket, (const uint8_t *)bytes + at, len - at, MSG_NOSIGNAL)
                              : recv(socket, (uint8_t *)to + at, len - at, 0);
        if (moved < 0 && errno == EINTR)
            continue;
        if (moved <= 0)
            return 0;
        at += (size_t)moved;
    }
    return 1;
}

/* Receives a line without its end, or an empty text if no whole line comes. */
static void read_line(int socket, char line[LINE]) {
    for (size_t len = 0; len < LINE && move(socket, NULL, line + len, 1); len++)
        if (line[len] == '\n') {
            line[len] = '\0';
            return;
        }
    line[0] = '\0';
}

/* Returns the number that is all of a text, or 0. */
static uint32_t number_of(const char *text) {
    char *end = NULL;
    unsigned long number = isdigit((unsigned char)*text) ? strtoul(text, &end, 10) : 0;
    return number > 0 && number <= MOST_BYTES && *end == '\0' ? (uint32_t)number : 0;
}

/* Returns an errno by its name, or EIO. */
static uint32_t errno_of(const char *name) {
    for (size_t at = 0; at < sizeof CAUSES / sizeof *CAUSES; at++)
        if (strcmp(name, CAUSES[at].name) == 0)
            return (uint32_t)CAUSES[at].number;
    return EIO;
}

/* Returns what the program's last line says, or what is known without one. */
static uint32_t status_of(const char *line, uint32_t without) {
    const char *why = strncmp(line, "failed ", 7) == 0 ? strchr(line + 7, ' ') : NULL;
    uint32_t number = why ? number_of(why + 1) : 0;
    if (strcmp(line, "saved") == 0 || strcmp(line, "left") == 0)
        return KRBF_DONE;
    if (strcmp(line, "lost") == 0)
        return KRBF_LOST;
    if (strcmp(line, "damaged") == 0)
        return KRBF_UNKNOWN;
    if (number > 0 && number < KRBF_LOST)
        return number;
    return why && why[1] == 'E' ? KRBF_ERRNO + errno_of(why + 1) : without;
}

/* Makes the socket the input and the output. The standard error is inherited, unless an exec would close it. */
static int set_streams(posix_spawn_file_actions_t *streams, int socket) {
    int of_error = fcntl(STDERR_FILENO, F_GETFD);
    int failed = posix_spawn_file_actions_adddup2(streams, socket, STDIN_FILENO);
    if (!failed)
        failed = posix_spawn_file_actions_adddup2(streams, socket, STDOUT_FILENO);
    if (!failed && (of_error < 0 || of_error & FD_CLOEXEC))
        failed = posix_spawn_file_actions_addopen(streams, STDERR_FILENO, "/dev/null", O_WRONLY, 0);
    return failed;
}

/* Asks for a session of its own, which Ctrl-C does not reach, and for no signal to be ignored or blocked. */
static void set_signals(posix_spawnattr_t *attributes) {
    sigset_t signals;
    sigfillset(&signals);
    posix_spawnattr_setsigdefault(attributes, &signals);
    sigemptyset(&signals);
    posix_spawnattr_setsigmask(attributes, &signals);
    posix_spawnattr_setflags(attributes, POSIX_SPAWN_SETSID | POSIX_SPAWN_SETSIGDEF | POSIX_SPAWN_SETSIGMASK);
}

/* Starts the program with those words. Returns 0 or an errno. */
static int start(const char **words, int socket, pid_t *program) {
    const char *path = getenv("KRBFILE");
    posix_spawn_file_actions_t streams;
    posix_spawnattr_t attributes;
    posix_spawn_file_actions_init(&streams);
    posix_spawnattr_init(&attributes);
    set_signals(&attributes);
    int failed = set_streams(&streams, socket);
    if (!failed)
        failed = posix_spawnp(program, path && *path ? path : words[0], &streams, &attributes, (char **)words, environ);
    posix_spawnattr_destroy(&attributes);
    posix_spawn_file_actions_destroy(&streams);
    return failed;
}

/* Starts the program on a file, and gives its socket. Returns 0 or an errno. */
static int hold(const char *name, uint32_t options, int *socket, pid_t *program) {
    static const char *const OPTIONS[] = {"-k", "--v1-big", "--in-place"}; /* a bit each */
    const char *words[8] = {"krbfile", "hold"}, **word = words + 2;
    int ends[2];
    for (size_t bit = 0; bit < sizeof OPTIONS / sizeof *OPTIONS; bit++)
        if (options >> bit & 1)
            *word++ = OPTIONS[bit];
    *word++ = "--";
    *word = name;
    if (socketpair(AF_UNIX, SOCK_STREAM | SOCK_CLOEXEC, 0, ends) < 0)
        return errno;
    int failed = start(words, ends[1], program);
    close(ends[1]);
    if (failed)
        close(ends[0]);
    *socket = ends[0];
    return failed;
}

/* Ends the program's input, also if another process has a copy of the socket, and waits for the program, unless another
 * part of the caller did that. */
static void end(int socket, pid_t program) {
    shutdown(socket, SHUT_RDWR);
    close(socket);
    while (waitpid(program, NULL, 0) < 0 && errno == EINTR)
        ;
}

/* Clears an edit, and gives its memory back. */
static void clear(krbf_edit *edit) {
    explicit_bzero(edit, sizeof *edit + edit->len);
    free(edit);
}

uint32_t krbf_edit_begin(const char *name, uint32_t options, krbf_edit **edit, krbf_bytes *image) {
    char line[LINE];
    krbf_edit own = {.maker = getpid()}, *made = NULL;
    int failed = hold(name, options, &own.socket, &own.program);
    *edit = NULL;
    if (failed)
        return KRBF_ERRNO + (uint32_t)failed;
    read_line(own.socket, line);
    own.len = number_of(line);
    uint32_t status = own.len > 0 ? KRBF_ERRNO + ENOMEM : status_of(line, NO_LINE);
    if (own.len > 0 && (made = malloc(sizeof own + own.len))) {
        *made = own;
        if (move(own.socket, NULL, made->image, own.len)) {
            *edit = made;
            *image = (krbf_bytes){made->image, own.len};
            return KRBF_DONE;
        }
        clear(made);
        status = NO_LINE;
    }
    end(own.socket, own.program);
    return status == KRBF_DONE ? NO_LINE : status;
}

/* Ends an edit: what its program's last line says, or what is known without one. In a forked child, whose parent goes
 * on with it, it is forgotten. */
static uint32_t finish(krbf_edit *edit, uint32_t without) {
    char line[LINE] = "";
    if (edit->maker == getpid()) {
        shutdown(edit->socket, SHUT_WR);
        read_line(edit->socket, line);
        end(edit->socket, edit->program);
    } else
        close(edit->socket);
    clear(edit);
    return status_of(line, without);
}

uint32_t krbf_edit_save(krbf_edit *edit, krbf_bytes image) {
    char front[LINE];
    int is_sent = 0;
    snprintf(front, sizeof front, "%zu\n", image.len);
    if (edit->maker == getpid())
        is_sent = move(edit->socket, front, NULL, strlen(front)) && move(edit->socket, image.at, NULL, image.len);
    return finish(edit, is_sent ? KRBF_UNKNOWN : NO_LINE);
}

uint32_t krbf_edit_leave(krbf_edit *edit) { return edit ? finish(edit, NO_LINE) : KRBF_DONE; }
