/*
 * Adds entries to a keytab file by libkrbfile, or removes its last ones: edits FILE ADDITIONS REMOVALS. It does what
 * mit_edits.c does, and writes and syncs the file once, at the end.
 */
#include "bench.h"
#include "krbfile.h"

#include <fcntl.h>
#include <string.h>
#include <unistd.h>

static krbf_keytab keytab = KRBF_NONE;
static uint32_t places[MOST];

static void open_file(const char *name) {
    static uint8_t image[16777216];
    int file = open(name, O_RDONLY);
    ssize_t len = read(file, image, sizeof image);
    must(len > 0 && !close(file), "read");
    must(krbf_kt_open(image, (size_t)len, 0, 0, &keytab) == KRBF_DONE, "krbf_kt_open");
}

/* Adds the entry of that number; the numbers make names of one length. */
static void add(unsigned number) {
    uint8_t key[32];
    char name[64];
    uint32_t place;
    memset(key, 0x6b, sizeof key);
    size_t len = (size_t)snprintf(name, sizeof name, "host/bench%05u.ad.test@AD.TEST", number);
    uint32_t status = krbf_kt_add(&keytab, name, len, 1700000000, 3, 18, key, sizeof key, &place);
    must(status == KRBF_DONE, "krbf_kt_add");
}

static void remove_last(unsigned removals) {
    uint32_t cursor = KRBF_FIRST;
    krbf_entry entry;
    size_t count = 0;
    for (; krbf_kt_next(&keytab, &cursor, &entry) == KRBF_DONE; places[count++] = entry.place)
        must(count < MOST, "too many entries");
    for (; removals > 0; removals--)
        must(krbf_kt_remove_at(&keytab, places[--count]) == KRBF_DONE, "krbf_kt_remove_at");
}

static void write_file(const char *name) {
    krbf_bytes image;
    must(krbf_kt_image(&keytab, &image) == KRBF_DONE, "krbf_kt_image");
    int file = open(name, O_WRONLY | O_TRUNC);
    must(write(file, image.at, image.len) == (ssize_t)image.len && !fsync(file) && !close(file), "write");
}

int main(int argc, char **argv) {
    must(argc == 4, "usage: edits FILE ADDITIONS REMOVALS");
    open_file(argv[1]);
    for (unsigned number = 0; number < number_in(argv[2]); number++)
        add(number);
    if (number_in(argv[3]) > 0)
        remove_last(number_in(argv[3]));
    write_file(argv[1]);
    krbf_kt_close(&keytab);
    return 0;
}
