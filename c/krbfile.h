/* Keytabs and credential caches (the FILE type) of MIT Kerberos, in memory: bytes in, bytes out.
 *
 * If the caller keeps these rules, each call does what it says:
 * - A handle begins as KRBF_NONE. Open and create are given an empty one: KRBF_NONE, or one that they refused or that
 *   was closed. Close is given an empty one, and then does nothing, or an open one. Each other call is given one that
 *   open or create returned KRBF_DONE for and that is not closed.
 * - A handle is not copied. It may go to another thread, and is used by one call at a time. No call is made from a
 *   signal handler, or in the forked child of a process with threads.
 * - A pointer is not NULL, but beside a length of 0, and what a call writes to overlaps nothing else that it is given.
 * - A krbf_bytes lies in the memory of its keytab or cache. It is read until that is changed or closed, and never
 *   written. The call that changes that may be given it: it copies what it is given first.
 *
 * Nothing else is asked: any image, name, key, number, place and cursor is looked at before it is used. Unless a call
 * returns KRBF_DONE, all is as it was before. Memory is the C library's, and is cleared before it is given back. */
#ifndef KRBFILE_H
#define KRBFILE_H

#include <stddef.h>
#include <stdint.h>

#ifdef __cplusplus
extern "C" {
#endif

/* What a call returns, and the MIT error that it means. */
enum {
    KRBF_DONE = 0,
    KRBF_NO_MEMORY = 1,                 /* ENOMEM */
    KRBF_END = 2,                       /* KRB5_KT_END, KRB5_CC_END */
    KRBF_TOO_SHORT = 11,                /* KRB5_KEYTAB_BADVNO, KRB5_CC_FORMAT */
    KRBF_BAD_VERSION = 12,              /* KRB5_KEYTAB_BADVNO, KRB5_CCACHE_BADVNO */
    KRBF_TOO_LARGE = 13,                /* an image beyond the limit, or no limit */
    KRBF_BAD_HEADER = 14,               /* KRB5_CC_FORMAT */
    KRBF_BAD_DEFAULT_PRINCIPAL = 15,    /* KRB5_CC_FORMAT */
    KRBF_NO_REALM = 21,                 /* a name: KRB5_PARSE_MALFORMED, as the next three */
    KRBF_LONE_BACKSLASH = 22,
    KRBF_SECOND_AT = 23,
    KRBF_SLASH_IN_REALM = 24,
    KRBF_DAMAGED = 31,                  /* KRB5_KT_FORMAT, KRB5_CC_FORMAT: a fault ends what can be read */
    KRBF_TOO_LONG = 32,                 /* a part does not fit the number that holds its length */
    KRBF_FULL = 33,                     /* the image would be beyond the limit */
    KRBF_NOT_A_PLACE = 34,              /* nothing begins or ends at this cursor */
    KRBF_NOT_LIVE = 35,                 /* nothing is at this place, or it was removed */
    KRBF_READ_ONLY = 38,                /* a cache of version 3 */
    KRBF_NOT_FOUND = 39,                /* KRB5_KT_NOTFOUND, KRB5_CC_NOTFOUND */
    KRBF_KVNO_NOT_FOUND = 40,           /* KRB5_KT_KVNONOTFOUND */
    KRBF_MARKED = 41,                   /* a ticket with endtime 0 and the greatest authtime, as removed ones have */
    KRBF_BAD_KEY = 42,                  /* a key of another length than those of its enctype */
    KRBF_ENCTYPE_NOT_FOUND = 43         /* no entry that fits a ticket in version has its enctype */
};

/* Bytes where they lie. If there are none, at is NULL. */
typedef struct {
    const uint8_t *at;
    size_t len;
} krbf_bytes;

/* A status in words, as "no realm". KRBF_NOT_FOUND where there are none for it. */
uint32_t krbf_phrase(uint32_t status, krbf_bytes *phrase);

/* ---- Keytabs */

typedef struct {
    void *held;
} krbf_keytab;

typedef struct {
    uint32_t place;                     /* where it is, in bytes from the front */
    uint32_t kvno;
    uint32_t timestamp;                 /* seconds since 1970, as all times here */
    uint32_t name_type;
    uint32_t enctype;
    size_t components;                  /* of its principal */
    krbf_bytes realm, key;
} krbf_entry;

#define KRBF_NONE {NULL}

/* The cursor of a walk over a keytab that begins. A cursor is a place: it needs no memory and no end, and stays good
 * while entries are added and removed. */
#define KRBF_FIRST 2u

/* krb5_kt_resolve of a file that is missing: an empty keytab of version 2. Its image has at most limit bytes, which is
 * 2 to 1,073,741,824, or 0 for 16,777,216. KRBF_TOO_LARGE for another. */
uint32_t krbf_kt_create(uint32_t limit, krbf_keytab *kt);

/* krb5_kt_resolve: the keytab of a copy of an image; one of version 1 is big-endian where v1_big is not 0. A damaged one
 * opens with the entries before its fault. KRBF_TOO_SHORT, KRBF_BAD_VERSION, KRBF_TOO_LARGE, before it is copied. */
uint32_t krbf_kt_open(const uint8_t *image, size_t image_len, uint32_t v1_big, uint32_t limit, krbf_keytab *kt);

/* krb5_kt_close: leaves the handle empty. An empty one stays so. */
uint32_t krbf_kt_close(krbf_keytab *kt);

/* krb5_kt_next_entry: the first entry at or after the cursor, which is then the place after it. KRBF_END,
 * KRBF_DAMAGED at a fault, KRBF_NOT_A_PLACE. */
uint32_t krbf_kt_next(krbf_keytab *kt, uint32_t *cursor, krbf_entry *entry);

/* The entry at a place. KRBF_NOT_LIVE. */
uint32_t krbf_kt_entry(krbf_keytab *kt, uint32_t place, krbf_entry *entry);

/* krb5_kt_get_entry: the entry of a name; version 0 is the highest, enctype 0 any. KRBF_NOT_FOUND,
 * KRBF_KVNO_NOT_FOUND, KRBF_DAMAGED, and what is wrong with the name. */
uint32_t krbf_kt_find(krbf_keytab *kt, const char *name, size_t name_len, uint32_t kvno, uint16_t enctype,
                      krbf_entry *entry);

/* krb5_unparse_name: the text of the name of the entry at a place. len is its length; the room has as much of it as it
 * takes. No NUL is added. KRBF_NOT_LIVE. */
uint32_t krbf_kt_name(krbf_keytab *kt, uint32_t place, char *room, size_t room_len, size_t *len);

/* The component of that number, from 0, of that name. Each call reads the record from its front: of a name with many
 * components, krbf_kt_name gives all in one pass. KRBF_NOT_LIVE, KRBF_NOT_FOUND. */
uint32_t krbf_kt_component(krbf_keytab *kt, uint32_t place, size_t number, krbf_bytes *component);

/* krb5_kt_add_entry: in the first hole with room, or else at the end. Its name has type 1, NT-PRINCIPAL. What is wrong
 * with the name, KRBF_BAD_KEY, KRBF_DAMAGED, KRBF_TOO_LONG, KRBF_FULL. */
uint32_t krbf_kt_add(krbf_keytab *kt, const char *name, size_t name_len, uint32_t timestamp, uint32_t kvno,
                     uint16_t enctype, const uint8_t *key, size_t key_len, uint32_t *place);

/* krb5_kt_remove_entry, of the entry at a place: a hole of zeros is left. KRBF_DAMAGED, KRBF_NOT_LIVE. */
uint32_t krbf_kt_remove_at(krbf_keytab *kt, uint32_t place);

/* The keytab in version 2, without holes. Each cursor goes on before the entry that it stood before.
 * KRBF_NOT_A_PLACE, KRBF_DAMAGED, KRBF_FULL. */
uint32_t krbf_kt_rewrite(krbf_keytab *kt, uint32_t *cursors, size_t cursors_len);

/* What krbfile ktcheck finds about an entry. */
enum {
    KRBF_WEAK = 1,                      /* an enctype that MIT calls weak or deprecated */
    KRBF_SIZE = 2,                      /* a key that is not as long as its enctype's */
    KRBF_SAME = 4,                      /* an earlier entry has its name, version, enctype and key */
    KRBF_CLASH = 8,                     /* an earlier entry has these, but another key */
    KRBF_OLD = 16,                      /* a newer version of its name is there */
    KRBF_NOSTRONG = 32,                 /* at the first entry of a name: its newest version has only weak keys */
    KRBF_HIDDEN = 64                    /* MIT's programs see no entry from this one on */
};

typedef struct {
    uint32_t place, findings;
} krbf_finding;

/* The entries about which something is found, in file order. len is their number; the room has as many as it takes. Of
 * a damaged keytab, those before its fault. */
uint32_t krbf_kt_findings(krbf_keytab *kt, krbf_finding *room, size_t room_len, size_t *len);

/* Would a service with this keytab open a ticket of this name, version and enctype? The entry that krbfile ktmatch
 * names; version 0 is any. By these numbers alone: the key may be another. KRBF_NOT_FOUND, KRBF_KVNO_NOT_FOUND where
 * no version fits, KRBF_ENCTYPE_NOT_FOUND, and what is wrong with the name. */
uint32_t krbf_kt_opens(krbf_keytab *kt, const char *name, size_t name_len, uint32_t kvno, int32_t enctype,
                       krbf_entry *entry);

/* Where what can be read ends, and the kind of what is wrong there: 0 nothing, 1 a length that is cut off, 2 a length
 * beyond the bytes, 3 a record with no entry in it. Always KRBF_DONE. */
uint32_t krbf_kt_fault(krbf_keytab *kt, uint32_t *kind, uint32_t *place);

/* The bytes of its file. */
uint32_t krbf_kt_image(krbf_keytab *kt, krbf_bytes *image);

/* ---- Credential caches */

typedef struct {
    void *held;
} krbf_ccache;

typedef struct {
    uint32_t place;
    uint32_t enctype;
    uint32_t authtime, starttime, endtime, renew_till;
    uint32_t flags;
    uint32_t is_skey;
    uint32_t is_config;                 /* 1 for a configuration entry, whose value is its ticket */
    krbf_bytes key, ticket, second_ticket;
} krbf_ticket;

/* What is not bytes in a ticket that is stored. */
typedef struct {
    uint32_t enctype;
    uint32_t authtime, starttime, endtime, renew_till;
    uint32_t flags;
    uint32_t is_skey;                   /* 0 or 1 */
} krbf_numbers;

/* The types of a ticket's names. */
typedef struct {
    uint32_t client, server;
} krbf_name_types;

/* A ticket to store. */
typedef struct {
    krbf_bytes client, server;          /* as text */
    krbf_bytes key, ticket, second_ticket;
    krbf_bytes addresses, authdata;     /* as krbf_cc_addresses and krbf_cc_authdata give them */
    krbf_numbers numbers;
    krbf_name_types types;              /* 1 is NT-PRINCIPAL */
} krbf_credential;

/* How a ticket is encrypted. */
typedef struct {
    int32_t enctype;
    uint32_t kvno;                      /* 0 where it has none */
    uint32_t has_kvno;                  /* 0 or 1 */
} krbf_encryption;

/* krb5_cc_initialize: an empty cache of version 4 of a default principal. The limit is as of krbf_kt_create. What is
 * wrong with the name, KRBF_FULL, KRBF_TOO_LARGE. */
uint32_t krbf_cc_create(const char *principal, size_t principal_len, uint32_t limit, krbf_ccache *cc);

/* krb5_cc_resolve: the cache of a copy of an image. KRBF_TOO_SHORT, KRBF_BAD_VERSION, KRBF_TOO_LARGE, before it is
 * copied; KRBF_BAD_HEADER, KRBF_BAD_DEFAULT_PRINCIPAL. */
uint32_t krbf_cc_open(const uint8_t *image, size_t image_len, uint32_t limit, krbf_ccache *cc);

/* krb5_cc_close: leaves the handle empty. An empty one stays so. */
uint32_t krbf_cc_close(krbf_ccache *cc);

/* krb5_cc_get_principal, as text. */
uint32_t krbf_cc_principal(krbf_ccache *cc, char *room, size_t room_len, size_t *len);

/* The header's time offset. KRBF_NOT_FOUND if there is none. */
uint32_t krbf_cc_offset(krbf_ccache *cc, int32_t *seconds, int32_t *micros);

/* krb5_cc_start_seq_get: the cursor of a walk that begins. */
uint32_t krbf_cc_first(krbf_ccache *cc, uint32_t *cursor);

/* krb5_cc_next_cred: the first ticket or configuration entry at or after the cursor, which is then the place after it.
 * KRBF_END, KRBF_DAMAGED, KRBF_NOT_A_PLACE. */
uint32_t krbf_cc_next(krbf_ccache *cc, uint32_t *cursor, krbf_ticket *ticket);

/* The ticket at a place. KRBF_NOT_LIVE. */
uint32_t krbf_cc_ticket(krbf_ccache *cc, uint32_t place, krbf_ticket *ticket);

/* krb5_cc_retrieve_cred: the first ticket for that server, whatever its times. KRBF_NOT_FOUND, and what is wrong with
 * the name. */
uint32_t krbf_cc_find(krbf_ccache *cc, const char *server, size_t server_len, krbf_ticket *ticket);

/* The client and the server of the ticket at a place, as text, as krbf_kt_name does. KRBF_NOT_LIVE. */
uint32_t krbf_cc_client(krbf_ccache *cc, uint32_t place, char *room, size_t room_len, size_t *len);
uint32_t krbf_cc_server(krbf_ccache *cc, uint32_t place, char *room, size_t room_len, size_t *len);

/* Their types. KRBF_NOT_LIVE. */
uint32_t krbf_cc_name_types(krbf_ccache *cc, uint32_t place, krbf_name_types *types);

/* How the ticket at a place is encrypted, and the server that it names, as text: by its own bytes (RFC 4120 5.3).
 * KRBF_NOT_LIVE; KRBF_NOT_FOUND where these are not a ticket in DER, or name no server. */
uint32_t krbf_cc_ticket_encryption(krbf_ccache *cc, uint32_t place, krbf_encryption *encryption);
uint32_t krbf_cc_ticket_server(krbf_ccache *cc, uint32_t place, char *room, size_t room_len, size_t *len);

/* The addresses and the authorization data of the ticket at a place, as the file has them after their number: of each
 * the type in 16 bits, the length in 32, both big-endian, and its bytes. KRBF_NOT_LIVE. */
uint32_t krbf_cc_addresses(krbf_ccache *cc, uint32_t place, krbf_bytes *addresses);
uint32_t krbf_cc_authdata(krbf_ccache *cc, uint32_t place, krbf_bytes *authdata);

/* krb5_cc_store_cred: a ticket without addresses and authorization data, at the end. Its names have type 1. What is
 * wrong with the names; KRBF_TOO_LONG for an enctype above 65,535 or an is_skey above 1; KRBF_BAD_KEY, KRBF_READ_ONLY,
 * KRBF_DAMAGED, KRBF_MARKED, KRBF_FULL. */
uint32_t krbf_cc_store(krbf_ccache *cc, const char *client, size_t client_len, const char *server, size_t server_len,
                       const uint8_t *key, size_t key_len, const uint8_t *ticket, size_t ticket_len,
                       const uint8_t *second_ticket, size_t second_ticket_len, const krbf_numbers *numbers,
                       uint32_t *place);

/* The same with the two lists and the types of both names. KRBF_TOO_LONG, after KRBF_BAD_KEY, where an item of a list
 * goes beyond its end. */
uint32_t krbf_cc_store_with(krbf_ccache *cc, const char *client, size_t client_len, const char *server,
                            size_t server_len, const uint8_t *key, size_t key_len, const uint8_t *ticket,
                            size_t ticket_len, const uint8_t *second_ticket, size_t second_ticket_len,
                            const uint8_t *addresses, size_t addresses_len, const uint8_t *authdata,
                            size_t authdata_len, const krbf_numbers *numbers, const krbf_name_types *types,
                            uint32_t *place);

/* The same, of a struct. */
static inline uint32_t krbf_cc_put(krbf_ccache *cc, const krbf_credential *credential, uint32_t *place) {
    const krbf_credential *c = credential;
    return krbf_cc_store_with(cc, (const char *)c->client.at, c->client.len, (const char *)c->server.at,
                              c->server.len, c->key.at, c->key.len, c->ticket.at, c->ticket.len,
                              c->second_ticket.at, c->second_ticket.len, c->addresses.at, c->addresses.len,
                              c->authdata.at, c->authdata.len, &c->numbers, &c->types, place);
}

/* krb5_cc_remove_cred, of the ticket at a place: it is marked as removed. KRBF_READ_ONLY, KRBF_DAMAGED,
 * KRBF_NOT_LIVE. */
uint32_t krbf_cc_remove_at(krbf_ccache *cc, uint32_t place);

/* krb5_cc_get_config: the value of a key, of a principal or, where that has no bytes, of the whole cache.
 * KRBF_NOT_FOUND. */
uint32_t krbf_cc_config(krbf_ccache *cc, const char *key, size_t key_len, const char *principal, size_t principal_len,
                        krbf_bytes *value);

/* krb5_cc_set_config: stores the value, and marks those that it takes the place of as removed. KRBF_READ_ONLY,
 * KRBF_DAMAGED, KRBF_FULL. */
uint32_t krbf_cc_set_config(krbf_ccache *cc, const char *key, size_t key_len, const char *principal,
                            size_t principal_len, const uint8_t *value, size_t value_len, uint32_t *place);

/* The cache in version 4, without what was removed. Each cursor goes on before the ticket that it stood before.
 * KRBF_NOT_A_PLACE, KRBF_DAMAGED, KRBF_FULL. */
uint32_t krbf_cc_rewrite(krbf_ccache *cc, uint32_t *cursors, size_t cursors_len);

/* Where what can be read ends, and the kind of what is wrong there: 0 nothing, 4 bytes that begin with no ticket. Always
 * KRBF_DONE. */
uint32_t krbf_cc_fault(krbf_ccache *cc, uint32_t *kind, uint32_t *place);

/* The bytes of its file. */
uint32_t krbf_cc_image(krbf_ccache *cc, krbf_bytes *image);

#ifdef __cplusplus
}
#endif

#endif
