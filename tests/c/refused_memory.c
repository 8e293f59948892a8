/* Refuses each request for memory in turn: the call says so, all is as before. Linked with --wrap=malloc,realloc. */
#include "check.h"

/* The request that is refused, counted from 1; none where it is 0. */
static unsigned refused;

void *__real_malloc(size_t size);
void *__real_realloc(void *block, size_t size);

static int refuses(void) { return refused > 0 && --refused == 0; }

void *__wrap_malloc(size_t size) { return refuses() ? NULL : __real_malloc(size); }

void *__wrap_realloc(void *block, size_t size) { return refuses() ? NULL : __real_realloc(block, size); }

static krbf_keytab kt = KRBF_NONE;
static krbf_ccache cc = KRBF_NONE;
static krbf_entry entry;
static krbf_finding finding;
static krbf_ticket ticket;
static uint32_t place;
static char room[64];
static size_t len;

static uint32_t create_kt(void) { return krbf_kt_create(0, &kt); }
static uint32_t add(void) { return krbf_kt_add(&kt, TEXT("host/a@R"), 0, 3, 17, KEY, sizeof KEY, &place); }
static uint32_t find(void) { return krbf_kt_find(&kt, TEXT("host/a@R"), 3, 0, &entry); }
static uint32_t opens(void) { return krbf_kt_opens(&kt, TEXT("host/a@R"), 3, 17, &entry); }
static uint32_t findings(void) { return krbf_kt_findings(&kt, &finding, 1, &len); }
static uint32_t name_kt(void) { return krbf_kt_name(&kt, KRBF_FIRST, room, sizeof room, &len); }
static uint32_t rewrite_kt(void) { return krbf_kt_rewrite(&kt, &place, 0); }
static uint32_t create_cc(void) { return krbf_cc_create(TEXT("u@R"), 0, &cc); }
static uint32_t find_cc(void) { return krbf_cc_find(&cc, TEXT("host/a@R"), &ticket); }
static uint32_t server(void) { return krbf_cc_server(&cc, place, room, sizeof room, &len); }
static uint32_t rewrite_cc(void) { return krbf_cc_rewrite(&cc, &place, 0); }

static uint32_t store(void) {
    return krbf_cc_store(&cc, TEXT("u@R"), TEXT("host/a@R"), KEY, sizeof KEY, KEY, 3, KEY, 0, &NUMBERS, &place);
}

static uint32_t put(void) { return krbf_cc_put(&cc, &WHOLE, &place); }
static uint32_t own_server(void) { return krbf_cc_ticket_server(&cc, place, room, sizeof room, &len); }

static uint32_t set_config(void) {
    uint32_t set;
    return krbf_cc_set_config(&cc, TEXT("k"), TEXT("b@R"), KEY, 4, &set);
}

static uint32_t (*const CALLS[])(void) = {create_kt, add,     find,   opens, findings,   name_kt,    rewrite_kt,
                                          create_cc, store,   find_cc, server, put,      own_server, set_config,
                                          rewrite_cc};

/* Makes a call with each of its requests refused, until none is. */
static void sweep(uint32_t (*call)(void)) {
    static uint8_t before[1 << 12];
    for (unsigned nth = 1; nth < 1000; nth++) {
        size_t size = put_images(&kt, &cc);
        CHECK(size <= sizeof before);
        memcpy(before, image, size);
        refused = nth;
        uint32_t status = call();
        if (refused > 0) {
            refused = 0;
            CHECK(status == KRBF_DONE);
            return;
        }
        CHECK(status == KRBF_NO_MEMORY && put_images(&kt, &cc) == size && !memcmp(image, before, size));
    }
    CHECK(!"a call asks for memory without end");
}

/* What the length or the version of an image refuses asks for no memory. */
static void open_none(void) {
    static const uint8_t zeros[64];
    refused = 1;
    CHECK(krbf_kt_open(zeros, 1, 0, 0, &kt) == KRBF_TOO_SHORT);
    CHECK(krbf_kt_open(zeros, sizeof zeros, 0, 0, &kt) == KRBF_BAD_VERSION);
    CHECK(krbf_kt_open((const uint8_t *)"\5\2", 3, 0, 2, &kt) == KRBF_TOO_LARGE);
    CHECK(krbf_cc_open(zeros, 1, 0, &cc) == KRBF_TOO_SHORT);
    CHECK(krbf_cc_open(zeros, sizeof zeros, 0, &cc) == KRBF_BAD_VERSION);
    CHECK(krbf_cc_open((const uint8_t *)"\5\4", 3, 2, &cc) == KRBF_TOO_LARGE);
    CHECK(refused == 1);
    refused = 0;
}

int main(void) {
    open_none();
    for (size_t at = 0; at < sizeof CALLS / sizeof *CALLS; at++)
        sweep(CALLS[at]);
    krbf_kt_close(&kt);
    krbf_cc_close(&cc);
    return 0;
}
