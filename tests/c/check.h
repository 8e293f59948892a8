/* What the C tests share: a check that ends the program, a key and numbers, and the images of both kinds. */
#ifndef CHECK_H
#define CHECK_H

#include "krbfile.h"

#include <stdio.h>
#include <stdlib.h>
#include <string.h>

#define CHECK(it)                                                                                                      \
    do {                                                                                                               \
        if (!(it)) {                                                                                                   \
            fprintf(stderr, "%s line %d: %s\n", __FILE__, __LINE__, #it);                                              \
            exit(99);                                                                                                  \
        }                                                                                                              \
    } while (0)

/* A text, and its length. */
#define TEXT(text) (text), strlen(text)

/* The key of all images of the tests, and the numbers of a ticket. */
static const uint8_t KEY[16] = {0, 1, 2, 3, 4, 5, 6, 7, 8, 9, 10, 11, 12, 13, 14, 15};
static const krbf_numbers NUMBERS = {17, 1, 0, 2, 0, 0, 0};

/* A ticket for h@R of the enctype 18 and the version 3, by the fields of RFC 4120 5.3: the version of the protocol, the
 * realm, the name, and the encryption. */
static const uint8_t OWN[] = {
    0x61, 0x2f, 0x30, 0x2d, 0xa0, 3, 2, 1, 5, 0xa1, 3, 0x1b, 1, 'R',
    0xa2, 0x0e, 0x30, 0x0c, 0xa0, 3, 2, 1, 2, 0xa1, 5, 0x30, 3, 0x1b, 1, 'h',
    0xa3, 0x11, 0x30, 0x0f, 0xa0, 3, 2, 1, 18, 0xa1, 3, 2, 1, 3, 0xa2, 3, 4, 1, 'x'};

/* Two addresses, and one element of authorization data. */
static const uint8_t ADDRESSES[] = {0, 2, 0, 0, 0, 4, 192, 0, 2, 1, 0, 3, 0, 0, 0, 0};
static const uint8_t AUTHDATA[] = {0, 1, 0, 0, 0, 1, 0x30};

#define BYTES(bytes) {(bytes), sizeof(bytes)}
#define TEXT_BYTES(text) {(const uint8_t *)(text), sizeof(text) - 1}

/* A credential of all these, whose server has the type 2, NT-SRV-INST. */
static const krbf_name_types TYPES = {1, 2};
static const krbf_credential WHOLE = {
    TEXT_BYTES("u@R"), TEXT_BYTES("host/a@R"), BYTES(KEY), BYTES(OWN), {NULL, 0}, BYTES(ADDRESSES), BYTES(AUTHDATA),
    {17, 1, 0, 2, 0, 0, 0}, {1, 2}};

static uint8_t image[1 << 12];

/* Puts the images of a keytab and a cache into image, one behind the other, and answers their length. */
static inline size_t put_images(krbf_keytab *kt, krbf_ccache *cc) {
    krbf_bytes bytes = {0}, more = {0};
    CHECK(!kt->held || krbf_kt_image(kt, &bytes) == KRBF_DONE);
    CHECK(!cc->held || krbf_cc_image(cc, &more) == KRBF_DONE);
    if (bytes.len)
        memcpy(image, bytes.at, bytes.len);
    if (more.len)
        memcpy(image + bytes.len, more.at, more.len);
    return bytes.len + more.len;
}

static inline int is_text(krbf_bytes bytes, const char *text) {
    return bytes.len == strlen(text) && !memcmp(bytes.at, text, bytes.len);
}

#endif
