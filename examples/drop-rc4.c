/* Takes the keys of the encryption type arcfour-hmac out of a keytab, which krbfile(1) holds meanwhile and saves:
 * cc -o drop-rc4 drop-rc4.c $(pkg-config --cflags --libs krbfile) && ./drop-rc4 FILE */
#include <krbfile_files.h>
#include <stdio.h>

static uint32_t drop_rc4(const char *file) {
    krbf_edit *edit;
    krbf_bytes image;
    krbf_keytab keytab = KRBF_NONE;
    krbf_entry entry;
    uint32_t cursor = KRBF_FIRST, status = krbf_edit_begin(file, KRBF_EDIT_KEYTAB, &edit, &image);
    if (status == KRBF_DONE)
        status = krbf_kt_open(image.at, image.len, 0, 0, &keytab);
    while (status == KRBF_DONE && (status = krbf_kt_next(&keytab, &cursor, &entry)) == KRBF_DONE)
        if (entry.enctype == 23)
            krbf_kt_remove_at(&keytab, entry.place);
    if (status == KRBF_END) {
        krbf_kt_image(&keytab, &image);
        status = krbf_edit_save(edit, image);
    } else
        krbf_edit_leave(edit);
    krbf_kt_close(&keytab);
    return status;
}

int main(int argc, char **argv) {
    uint32_t status = argc == 2 ? drop_rc4(argv[1]) : KRBF_END;
    if (status != KRBF_DONE)
        fprintf(stderr, "drop-rc4: status %u\n", (unsigned)status);
    return status != KRBF_DONE;
}
