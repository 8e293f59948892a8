/* Lists the keytab on its standard input through libkrbfile: cc -o list list.c $(pkg-config --cflags --libs krbfile) */
#include <krbfile.h>
#include <stdio.h>

static uint8_t image[(1 << 24) + 1];
static char name[1 << 16];

int main(void) {
    krbf_keytab keytab = KRBF_NONE;
    krbf_entry entry;
    uint32_t cursor = KRBF_FIRST, status;
    size_t len = fread(image, 1, sizeof image, stdin);
    if (ferror(stdin) || krbf_kt_open(image, len, 0, 0, &keytab) != KRBF_DONE)
        return 1;
    while ((status = krbf_kt_next(&keytab, &cursor, &entry)) == KRBF_DONE) {
        if (krbf_kt_name(&keytab, entry.place, name, sizeof name, &len) == KRBF_DONE && len <= sizeof name)
            printf("%u %.*s\n", entry.kvno, (int)len, name);
    }
    krbf_kt_close(&keytab);
    return status == KRBF_END ? 0 : 1;
}
