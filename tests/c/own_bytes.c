/* Each call that takes bytes is given none, and some that lie in its own keytab or cache: it does what it does with a
 * copy of them. What is added is found with all its parts. Run under gcc's sanitizers, and under valgrind. */
#include "check.h"

static krbf_keytab kt = KRBF_NONE;
static krbf_ccache cc = KRBF_NONE;
static uint32_t place;

/* The images of both, one behind the other: before a call, and after it, with own bytes and with copies. */
static uint8_t before[1 << 12], made[2][1 << 12];
static size_t keytab_len, len, made_len[2];

static int gives_copies;
static uint8_t copies[1 << 10];
static size_t copied;

/* The bytes as they lie, or a copy. */
static const uint8_t *given(krbf_bytes bytes) {
    uint8_t *copy = copies + copied;
    if (!gives_copies)
        return bytes.at;
    CHECK(bytes.len <= sizeof copies - copied);
    memcpy(copy, bytes.at, bytes.len);
    copied += bytes.len;
    return copy;
}

#define GIVEN(bytes) given(bytes), (bytes).len
#define GIVEN_TEXT(bytes) (const char *)given(bytes), (bytes).len

/* The name of the only entry is b\@R@R, so that its component is the text of a name. */
static void find_and_add(void) {
    krbf_bytes name;
    krbf_entry entry;
    CHECK(krbf_kt_entry(&kt, KRBF_FIRST, &entry) == KRBF_DONE);
    CHECK(krbf_kt_component(&kt, KRBF_FIRST, 0, &name) == KRBF_DONE && is_text(name, "b@R"));
    CHECK(krbf_kt_find(&kt, GIVEN_TEXT(name), 0, 0, &entry) == KRBF_NOT_FOUND);
    CHECK(krbf_kt_add(&kt, GIVEN_TEXT(name), 5, 7, 17, GIVEN(entry.key), &place) == KRBF_DONE);
    CHECK(krbf_kt_find(&kt, TEXT("b@R"), 7, 17, &entry) == KRBF_DONE && entry.key.len == 16);
}

/* A configuration value of the cache. */
static krbf_bytes value_of(const char *key) {
    krbf_bytes value;
    CHECK(krbf_cc_config(&cc, TEXT(key), NULL, 0, &value) == KRBF_DONE);
    return value;
}

static krbf_ticket ticket_of(void) {
    krbf_ticket ticket;
    CHECK(krbf_cc_find(&cc, TEXT("host/a@R"), &ticket) == KRBF_DONE);
    return ticket;
}

static void look_up(void) {
    krbf_ticket ticket;
    krbf_bytes value;
    CHECK(krbf_cc_find(&cc, GIVEN_TEXT(value_of("server")), &ticket) == KRBF_DONE);
    CHECK(krbf_cc_config(&cc, GIVEN_TEXT(value_of("key")), GIVEN_TEXT(value_of("client")), &value) == KRBF_DONE);
    CHECK(is_text(value, "2"));
}

static void store(void) {
    krbf_ticket ticket = ticket_of();
    krbf_bytes addresses, authdata;
    CHECK(krbf_cc_addresses(&cc, ticket.place, &addresses) == KRBF_DONE && addresses.len == sizeof ADDRESSES);
    CHECK(krbf_cc_authdata(&cc, ticket.place, &authdata) == KRBF_DONE && authdata.len == sizeof AUTHDATA);
    CHECK(krbf_cc_store_with(&cc, GIVEN_TEXT(value_of("client")), GIVEN_TEXT(value_of("server")), GIVEN(ticket.key),
                             GIVEN(ticket.ticket), GIVEN(ticket.second_ticket), GIVEN(addresses), GIVEN(authdata),
                             &NUMBERS, &TYPES, &place) == KRBF_DONE);
}

/* A value under another key and principal, each of which is a value too. */
static void set_config(void) {
    CHECK(krbf_cc_set_config(&cc, GIVEN_TEXT(value_of("server")), GIVEN_TEXT(value_of("client")),
                             GIVEN(ticket_of().ticket), &place) == KRBF_DONE);
}

/* A value takes its own place. */
static void set_again(void) {
    CHECK(krbf_cc_set_config(&cc, TEXT("client"), NULL, 0, GIVEN(value_of("client")), &place) == KRBF_DONE);
    CHECK(is_text(value_of("client"), "b@R"));
}

static void (*const CALLS[])(void) = {find_and_add, look_up, store, set_config, set_again};

/* Keeps the images, and closes both. */
static size_t keep(uint8_t *to) {
    size_t size = put_images(&kt, &cc);
    CHECK(size <= sizeof before);
    memcpy(to, image, size);
    krbf_kt_close(&kt);
    krbf_cc_close(&cc);
    return size;
}

/* Makes a keytab with one entry, and a cache, whose images have no room to grow once they are opened. */
static void make(void) {
    static const char *const VALUES[][3] = {
        {"key", "", "flag"}, {"client", "", "b@R"}, {"server", "", "host/a@R"}, {"flag", "b@R", "2"}};
    krbf_bytes of_keytab;
    uint8_t second[3] = {7, 8, 9}, ticket[200] = {10, 11, 12};
    CHECK(krbf_kt_create(0, &kt) == KRBF_DONE && krbf_cc_create(TEXT("u@R"), 0, &cc) == KRBF_DONE);
    CHECK(krbf_kt_add(&kt, TEXT("b\\@R@R"), 5, 7, 17, KEY, sizeof KEY, &place) == KRBF_DONE);
    for (size_t at = 0; at < sizeof VALUES / sizeof *VALUES; at++)
        CHECK(krbf_cc_set_config(&cc, TEXT(VALUES[at][0]), TEXT(VALUES[at][1]), (const uint8_t *)TEXT(VALUES[at][2]),
                                 &place) == KRBF_DONE);
    CHECK(krbf_cc_store_with(&cc, TEXT("u@R"), TEXT("host/a@R"), KEY, sizeof KEY, ticket, sizeof ticket, second,
                             sizeof second, ADDRESSES, sizeof ADDRESSES, AUTHDATA, sizeof AUTHDATA, &NUMBERS,
                             &TYPES, &place) == KRBF_DONE);
    CHECK(krbf_kt_image(&kt, &of_keytab) == KRBF_DONE);
    keytab_len = of_keytab.len;
    len = keep(before);
}

static void check(void (*call)(void)) {
    for (gives_copies = 0; gives_copies < 2; gives_copies++) {
        CHECK(krbf_kt_open(before, keytab_len, 0, 0, &kt) == KRBF_DONE);
        CHECK(krbf_cc_open(before + keytab_len, len - keytab_len, 0, &cc) == KRBF_DONE);
        call();
        made_len[gives_copies] = keep(made[gives_copies]);
        copied = 0;
    }
    CHECK(made_len[0] == made_len[1] && !memcmp(made[0], made[1], made_len[0]));
}

/* NULL with a length of 0 is no bytes, in each call that takes some. An empty handle may be closed. */
static void keytabs(void) {
    krbf_keytab kt = KRBF_NONE;
    krbf_entry entry;
    uint32_t place, kind;
    size_t len = 0;
    CHECK(krbf_kt_close(&kt) == KRBF_DONE && kt.held == NULL);
    CHECK(krbf_kt_open(NULL, 0, 0, 0, &kt) == KRBF_TOO_SHORT && kt.held == NULL);
    CHECK(krbf_kt_close(&kt) == KRBF_DONE && krbf_kt_create(0, &kt) == KRBF_DONE);
    CHECK(krbf_kt_find(&kt, NULL, 0, 0, 0, &entry) == KRBF_NO_REALM);
    CHECK(krbf_kt_opens(&kt, NULL, 0, 0, 0, &entry) == KRBF_NO_REALM);
    CHECK(krbf_kt_findings(&kt, NULL, 0, &len) == KRBF_DONE && len == 0);
    CHECK(krbf_kt_add(&kt, NULL, 0, 0, 1, 17, KEY, 16, &place) == KRBF_NO_REALM);
    CHECK(krbf_kt_add(&kt, TEXT("a@R"), 0, 1, 17, NULL, 0, &place) == KRBF_BAD_KEY);
    CHECK(krbf_kt_add(&kt, TEXT("a@R"), 0, 1, 99, NULL, 0, &place) == KRBF_DONE);
    CHECK(krbf_kt_entry(&kt, place, &entry) == KRBF_DONE && !entry.key.at && !entry.key.len);
    CHECK(krbf_kt_name(&kt, place, NULL, 0, &len) == KRBF_DONE && len == 3);
    CHECK(krbf_kt_rewrite(&kt, NULL, 0) == KRBF_DONE);
    CHECK(krbf_kt_fault(&kt, &kind, &place) == KRBF_DONE && kind == 0);
    CHECK(krbf_kt_close(&kt) == KRBF_DONE && krbf_kt_close(&kt) == KRBF_DONE);
}

/* An enctype whose keys have any length. */
static const krbf_numbers UNKNOWN = {99, 1, 0, 2, 0, 0, 0};

static void caches(void) {
    krbf_ccache cc = KRBF_NONE;
    krbf_ticket ticket;
    krbf_bytes value;
    uint32_t place, kind;
    size_t len = 0;
    CHECK(krbf_cc_close(&cc) == KRBF_DONE && cc.held == NULL);
    CHECK(krbf_cc_open(NULL, 0, 0, &cc) == KRBF_TOO_SHORT && cc.held == NULL);
    CHECK(krbf_cc_create(NULL, 0, 0, &cc) == KRBF_NO_REALM && cc.held == NULL);
    CHECK(krbf_cc_close(&cc) == KRBF_DONE && krbf_cc_create(TEXT("u@R"), 0, &cc) == KRBF_DONE);
    CHECK(krbf_cc_principal(&cc, NULL, 0, &len) == KRBF_DONE && len == 3);
    CHECK(krbf_cc_find(&cc, NULL, 0, &ticket) == KRBF_NO_REALM);
    CHECK(krbf_cc_store(&cc, NULL, 0, TEXT("a@R"), KEY, 16, KEY, 1, KEY, 1, &NUMBERS, &place) == KRBF_NO_REALM);
    CHECK(krbf_cc_store(&cc, TEXT("u@R"), NULL, 0, KEY, 16, KEY, 1, KEY, 1, &NUMBERS, &place) == KRBF_NO_REALM);
    CHECK(krbf_cc_store(&cc, TEXT("u@R"), TEXT("a@R"), NULL, 0, NULL, 0, NULL, 0, &NUMBERS, &place) == KRBF_BAD_KEY);
    CHECK(krbf_cc_store(&cc, TEXT("u@R"), TEXT("a@R"), NULL, 0, NULL, 0, NULL, 0, &UNKNOWN, &place) == KRBF_DONE);
    CHECK(krbf_cc_ticket(&cc, place, &ticket) == KRBF_DONE);
    CHECK(!ticket.key.at && !ticket.ticket.at && !ticket.second_ticket.at);
    CHECK(krbf_cc_client(&cc, place, NULL, 0, &len) == KRBF_DONE && len == 3);
    CHECK(krbf_cc_server(&cc, place, NULL, 0, &len) == KRBF_DONE && len == 3);
    CHECK(krbf_cc_set_config(&cc, NULL, 0, NULL, 0, NULL, 0, &place) == KRBF_DONE);
    CHECK(krbf_cc_config(&cc, NULL, 0, NULL, 0, &value) == KRBF_DONE && !value.at && !value.len);
    CHECK(krbf_cc_rewrite(&cc, NULL, 0) == KRBF_DONE);
    CHECK(krbf_cc_fault(&cc, &kind, &place) == KRBF_DONE && kind == 0);
    CHECK(krbf_cc_close(&cc) == KRBF_DONE && krbf_cc_close(&cc) == KRBF_DONE);
}

static const char NAME[] = "c/abi@EXAMPLE.ORG";
static const krbf_numbers LASTING = {17, 1700000000, 0, 1700036000, 0, 0x40e00000, 0};

static void entry_parts(void) {
    uint32_t cursor = KRBF_FIRST;
    krbf_entry entry;
    krbf_bytes part;
    char room[] = "........";
    CHECK(krbf_kt_create(0, &kt) == KRBF_DONE);
    CHECK(krbf_kt_add(&kt, TEXT(NAME), 1700000000, 200, 17, KEY, sizeof KEY, &place) == KRBF_DONE);
    CHECK(krbf_kt_find(&kt, TEXT(NAME), 0, 17, &entry) == KRBF_DONE);
    CHECK(entry.place == place && entry.kvno == 200 && entry.timestamp == 1700000000);
    CHECK(entry.enctype == 17 && entry.name_type == 1 && entry.components == 2);
    CHECK(entry.key.len == sizeof KEY && !memcmp(entry.key.at, KEY, sizeof KEY));
    CHECK(is_text(entry.realm, "EXAMPLE.ORG"));
    CHECK(krbf_kt_component(&kt, place, 1, &part) == KRBF_DONE && is_text(part, "abi"));
    CHECK(krbf_kt_component(&kt, place, 2, &part) == KRBF_NOT_FOUND && is_text(part, "abi"));
    CHECK(krbf_kt_name(&kt, place, room, 5, &len) == KRBF_DONE && len == strlen(NAME));
    CHECK(!memcmp(room, "c/abi...", 8));
    CHECK(krbf_kt_next(&kt, &cursor, &entry) == KRBF_DONE && entry.place == place);
    CHECK(krbf_kt_next(&kt, &cursor, &entry) == KRBF_END);
    krbf_kt_close(&kt);
}

static void ticket_parts(void) {
    uint32_t cursor;
    krbf_ticket ticket;
    char room[3];
    CHECK(krbf_cc_create(TEXT("u@R"), 0, &cc) == KRBF_DONE);
    CHECK(krbf_cc_store(&cc, TEXT("u@R"), TEXT(NAME), KEY, sizeof KEY, (const uint8_t *)TEXT("tkt"), KEY, 0, &LASTING,
                        &place) == KRBF_DONE);
    CHECK(krbf_cc_find(&cc, TEXT(NAME), &ticket) == KRBF_DONE && ticket.place == place);
    CHECK(ticket.enctype == 17 && ticket.authtime == 1700000000 && ticket.endtime == 1700036000);
    CHECK(ticket.flags == 0x40e00000 && !ticket.is_skey && !ticket.is_config);
    CHECK(ticket.key.len == sizeof KEY && !memcmp(ticket.key.at, KEY, sizeof KEY));
    CHECK(is_text(ticket.ticket, "tkt") && ticket.second_ticket.len == 0);
    CHECK(krbf_cc_client(&cc, place, room, sizeof room, &len) == KRBF_DONE && len == 3 && !memcmp(room, "u@R", 3));
    krbf_cc_first(&cc, &cursor);
    CHECK(krbf_cc_next(&cc, &cursor, &ticket) == KRBF_DONE && ticket.place == place);
    CHECK(krbf_cc_next(&cc, &cursor, &ticket) == KRBF_END);
    krbf_cc_close(&cc);
}

static int are(krbf_bytes bytes, const uint8_t *due, size_t due_len) {
    return bytes.len == due_len && !memcmp(bytes.at, due, due_len);
}

/* A ticket is put with all its parts, and is found with them; a configuration value is no ticket. */
static void own_parts(void) {
    krbf_bytes addresses, authdata;
    krbf_encryption encryption;
    krbf_name_types types = {0};
    char text[4] = "";
    CHECK(krbf_cc_create(TEXT("u@R"), 0, &cc) == KRBF_DONE && krbf_cc_put(&cc, &WHOLE, &place) == KRBF_DONE);
    CHECK(krbf_cc_name_types(&cc, place, &types) == KRBF_DONE && types.client == 1 && types.server == 2);
    CHECK(krbf_cc_ticket_encryption(&cc, place, &encryption) == KRBF_DONE);
    CHECK(encryption.enctype == 18 && encryption.kvno == 3 && encryption.has_kvno == 1);
    CHECK(krbf_cc_ticket_server(&cc, place, text, sizeof text, &len) == KRBF_DONE && len == 3 && !strcmp(text, "h@R"));
    CHECK(krbf_cc_addresses(&cc, place, &addresses) == KRBF_DONE && are(addresses, ADDRESSES, sizeof ADDRESSES));
    CHECK(krbf_cc_authdata(&cc, place, &authdata) == KRBF_DONE && are(authdata, AUTHDATA, sizeof AUTHDATA));
    CHECK(krbf_cc_set_config(&cc, TEXT("k"), NULL, 0, (const uint8_t *)TEXT("v"), &place) == KRBF_DONE);
    CHECK(krbf_cc_ticket_encryption(&cc, place, &encryption) == KRBF_NOT_FOUND && encryption.kvno == 3);
    CHECK(krbf_cc_ticket_server(&cc, place, text, sizeof text, &len) == KRBF_NOT_FOUND && len == 3);
    CHECK(krbf_cc_addresses(&cc, place, &addresses) == KRBF_DONE && !addresses.at && !addresses.len);
    CHECK(krbf_cc_authdata(&cc, 1, &authdata) == KRBF_NOT_LIVE && authdata.len == sizeof AUTHDATA);
    CHECK(krbf_cc_ticket_server(&cc, 1, text, sizeof text, &len) == KRBF_NOT_LIVE);
    CHECK(krbf_cc_name_types(&cc, 1, &types) == KRBF_NOT_LIVE && types.server == 2);
}

/* What refuses a ticket, in order: each is mended before the next. */
static void refused_parts(void) {
    krbf_credential ticket = WHOLE;
    ticket.client.len = ticket.authdata.len = 1;
    ticket.addresses.len--;
    ticket.key.len--;
    ticket.numbers.is_skey = 2;
    CHECK(krbf_cc_put(&cc, &ticket, &place) == KRBF_NO_REALM);
    ticket.client = WHOLE.client;
    CHECK(krbf_cc_put(&cc, &ticket, &place) == KRBF_TOO_LONG);
    ticket.numbers = WHOLE.numbers;
    CHECK(krbf_cc_put(&cc, &ticket, &place) == KRBF_BAD_KEY);
    ticket.key = WHOLE.key;
    CHECK(krbf_cc_put(&cc, &ticket, &place) == KRBF_TOO_LONG);
    ticket.addresses = WHOLE.addresses;
    CHECK(krbf_cc_put(&cc, &ticket, &place) == KRBF_TOO_LONG);
    ticket.authdata = WHOLE.authdata;
    CHECK(krbf_cc_put(&cc, &ticket, &place) == KRBF_DONE);
    krbf_cc_close(&cc);
}

/* The offset of a header, 5 seconds back and 6 microseconds ahead; a new cache has none. */
static void offset(void) {
    static const uint8_t AHEAD[] = {5, 4, 0, 12, 0, 1, 0, 8, 255, 255, 255, 251, 0, 0, 0, 6,
                                    0, 0, 0, 1, 0, 0, 0, 1, 0, 0, 0, 1, 'R', 0, 0, 0, 1, 'u'};
    int32_t seconds = 1, micros = 2;
    CHECK(krbf_cc_create(TEXT("u@R"), 0, &cc) == KRBF_DONE);
    CHECK(krbf_cc_offset(&cc, &seconds, &micros) == KRBF_NOT_FOUND && seconds == 1 && micros == 2);
    krbf_cc_close(&cc);
    CHECK(krbf_cc_open(AHEAD, sizeof AHEAD, 0, &cc) == KRBF_DONE);
    CHECK(krbf_cc_offset(&cc, &seconds, &micros) == KRBF_DONE && seconds == -5 && micros == 6);
    krbf_cc_close(&cc);
}

int main(void) {
    keytabs();
    caches();
    own_parts();
    refused_parts();
    offset();
    entry_parts();
    ticket_parts();
    make();
    for (size_t at = 0; at < sizeof CALLS / sizeof *CALLS; at++)
        check(CALLS[at]);
    return 0;
}
