/* Prints what is found about entries of a keytab, and what is said of tickets by their names, versions and enctypes. */
#include "check.h"

int main(int count, char **words) {
    static krbf_finding room[64], few[1];
    krbf_keytab kt = KRBF_NONE;
    krbf_entry entry = {0};
    size_t len = fread(image, 1, sizeof image, stdin), found, again;
    CHECK(krbf_kt_open(image, len, 0, 0, &kt) == KRBF_DONE);
    CHECK(krbf_kt_findings(&kt, room, 64, &found) == KRBF_DONE && found <= 64);
    CHECK(krbf_kt_findings(&kt, few, 1, &again) == KRBF_DONE && again == found && !memcmp(few, room, sizeof few));
    for (size_t at = 0; at < found; at++)
        printf("%u %u\n", room[at].place, room[at].findings);
    for (int at = 1; at + 2 < count; at += 3) {
        uint32_t kvno = strtoul(words[at + 1], NULL, 10);
        int32_t enctype = strtol(words[at + 2], NULL, 10);
        uint32_t status = krbf_kt_opens(&kt, TEXT(words[at]), kvno, enctype, &entry);
        printf("%u %u\n", status, status == KRBF_DONE ? entry.place : 0);
    }
    krbf_kt_close(&kt);
    return 0;
}
