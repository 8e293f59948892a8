/*
 * Adds entries to a keytab file by MIT's libkrb5, or removes its last ones: mit_edits FILE ADDITIONS REMOVALS. It does
 * what edits.c does, and libkrb5 writes and syncs the file each time.
 */
#include "bench.h"

#include <krb5.h>
#include <string.h>

static krb5_context context;
static krb5_keytab keytab;
static krb5_keytab_entry entries[MOST];

/* Adds the entry of that number, as edits.c makes it; libkrb5 sets its time. */
static void add(unsigned number) {
    static unsigned char key[32];
    krb5_keytab_entry entry = {.vno = 3, .key = {.enctype = 18, .length = sizeof key, .contents = key}};
    char name[64];
    memset(key, 0x6b, sizeof key);
    snprintf(name, sizeof name, "host/bench%05u.ad.test@AD.TEST", number);
    must(!krb5_parse_name(context, name, &entry.principal), "parse_name");
    must(!krb5_kt_add_entry(context, keytab, &entry), "add_entry");
    krb5_free_principal(context, entry.principal);
}

static void remove_last(unsigned removals) {
    krb5_kt_cursor cursor;
    size_t count = 0;
    must(!krb5_kt_start_seq_get(context, keytab, &cursor), "start_seq_get");
    while (!krb5_kt_next_entry(context, keytab, &entries[count], &cursor))
        must(++count < MOST, "too many entries");
    must(!krb5_kt_end_seq_get(context, keytab, &cursor), "end_seq_get");
    for (; removals > 0; removals--)
        must(!krb5_kt_remove_entry(context, keytab, &entries[--count]), "remove_entry");
}

int main(int argc, char **argv) {
    must(argc == 4, "usage: mit_edits FILE ADDITIONS REMOVALS");
    must(!krb5_init_context(&context) && !krb5_kt_resolve(context, argv[1], &keytab), "resolve");
    for (unsigned number = 0; number < number_in(argv[2]); number++)
        add(number);
    if (number_in(argv[3]) > 0)
        remove_last(number_in(argv[3]));
    krb5_kt_close(context, keytab);
    krb5_free_context(context);
    return 0;
}
