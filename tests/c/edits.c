/* edits WAY COUNT CHANGE FILE OPTIONS: edits a file as often, by a caller that treats signals and children in that way,
 * and runs the command in DEED between begin and save. Prints where each ends, and its status. None leaves a child or a
 * descriptor. */
#include "check.h"
#include "krbfile_files.h"

#include <errno.h>
#include <fcntl.h>
#include <pthread.h>
#include <signal.h>
#include <sys/time.h>
#include <sys/wait.h>
#include <unistd.h>

static void reap(int number) {
    int before = errno;
    (void)number;
    while (waitpid(-1, NULL, WNOHANG) > 0)
        ;
    errno = before;
}

static void *keep_on(void *unused) {
    for (;;)
        reap(0);
    return unused;
}

static void treat(const char *way) {
    static const struct itimerval TICKS = {{0, 1000}, {0, 1000}};
    int is_handler = !strcmp(way, "handler"), is_ignored = !strcmp(way, "ignored");
    struct sigaction action = {.sa_handler = is_ignored ? SIG_IGN : reap};
    pthread_t thread;
    sigset_t all;
    sigfillset(&all);
    for (int number = 1; number < 32; number++)
        if (is_ignored || (is_handler && (number == SIGCHLD || number == SIGALRM)))
            sigaction(number, &action, NULL);
    CHECK(!is_handler || !setitimer(ITIMER_REAL, &TICKS, NULL));
    CHECK(strcmp(way, "blocked") || !sigprocmask(SIG_SETMASK, &all, NULL));
    CHECK(strcmp(way, "thread") || !pthread_create(&thread, NULL, keep_on, NULL));
    CHECK(strcmp(way, "closed") || !(close(0) | close(1) | close(2)));
}

/* Adds an entry to the keytab of an image, and gives the image of that. */
static krbf_bytes added(krbf_keytab *kt, krbf_bytes image, uint32_t kvno) {
    uint32_t place;
    CHECK(krbf_kt_open(image.at, image.len, 0, 0, kt) == KRBF_DONE);
    CHECK(krbf_kt_add(kt, TEXT("a@R"), 0, kvno, 17, KEY, sizeof KEY, &place) == KRBF_DONE);
    CHECK(krbf_kt_image(kt, &image) == KRBF_DONE);
    return image;
}

/* Where the last edit has ended. */
static const char *step;

static uint32_t edit(const char *change, const char *name, uint32_t options, uint32_t nth) {
    krbf_keytab kt = KRBF_NONE;
    krbf_bytes image;
    krbf_edit *edit;
    uint32_t status = krbf_edit_begin(name, options, &edit, &image);
    int is_failed;
    step = edit ? change : "begin";
    if (!edit)
        return krbf_edit_leave(edit) == KRBF_DONE ? status : 0;
    CHECK(status == KRBF_DONE && (!getenv("DEED") || system(getenv("DEED")) == 0));
    if (!strcmp(change, "leave"))
        return krbf_edit_leave(edit);
    pid_t child = strcmp(change, "fork") ? -1 : fork();
    if (child == 0)
        _exit(krbf_edit_save(edit, image) != KRBF_ERRNO + EIO);
    CHECK(child < 0 || (waitpid(child, &is_failed, 0) == child && !is_failed));
    if (!strcmp(change, "cut"))
        image.len--;
    if (!strcmp(change, "add"))
        image = added(&kt, image, nth);
    status = krbf_edit_save(edit, image);
    krbf_kt_close(&kt);
    return status;
}

int main(int argc, char **argv) {
    CHECK(argc == 6);
    FILE *printed = fdopen(fcntl(1, F_DUPFD_CLOEXEC, 50), "w");
    treat(argv[1]);
    int free_one = dup(50);
    close(free_one);
    for (uint32_t nth = 1; nth <= strtoul(argv[2], NULL, 10); nth++) {
        uint32_t status = edit(argv[3], argv[4], (uint32_t)strtoul(argv[5], NULL, 10), nth);
        fprintf(printed, "%s %u\n", step, status);
        CHECK(dup(50) == free_one && close(free_one) == 0);
    }
    CHECK(!strcmp(argv[1], "thread") || (waitpid(-1, NULL, 0) < 0 && errno == ECHILD));
    return fclose(printed);
}
