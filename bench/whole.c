/*
 * Lists a keytab of version 2 with the output and the promises of `klist -k FILE`: it reads the whole file, checks each
 * entry before it prints any, lists those before a fault, quotes names, prints in large writes, and clears its memory.
 */
#include "bench.h"

#include <fcntl.h>
#include <signal.h>
#include <string.h>
#include <unistd.h>

enum { LIMIT = 16777216, WRITE = 32768, ROOM = WRITE + 2 * 65535 + 64 };

typedef struct { const uint8_t *at; size_t len; } bytes;
typedef struct { bytes realm, parts; uint32_t version; } entry;

static uint8_t image[LIMIT + 1], lines[ROOM], *out = lines;
static size_t image_len;

static _Noreturn void end(int status) {
    explicit_bzero(image, image_len);
    explicit_bzero(lines, ROOM);
    exit(status);
}

static void flush(void) {
    ssize_t done;
    for (const uint8_t *from = lines; from < out; from += done)
        if ((done = write(1, from, (size_t)(out - from))) < 0)
            end(3);
    out = lines;
}

/* Splits off that many bytes, or returns NULL if there are fewer. */
static inline const uint8_t *take(bytes *from, size_t len) {
    const uint8_t *at = from->at;
    if (from->len < len)
        return NULL;
    *from = (bytes){at + len, from->len - len};
    return at;
}

static inline int take_data(bytes *from, bytes *data) {
    const uint8_t *len = take(from, 2);
    return len && (data->at = take(from, data->len = get16(len)));
}

static inline int is_entry(bytes record, entry *found) {
    bytes part;
    const uint8_t *at = take(&record, 2);
    if (!at || !take_data(&record, &found->realm))
        return 0;
    found->parts.at = record.at;
    for (unsigned left = get16(at); left > 0; left--)
        if (!take_data(&record, &part))
            return 0;
    found->parts.len = (size_t)(record.at - found->parts.at);
    if (!(at = take(&record, 11)) || !take_data(&record, &part))
        return 0;
    found->version = at[8];
    if ((at = take(&record, 4)) && get32(at))
        found->version = (uint32_t)get32(at);
    return 1;
}

/* Passes over holes and an entry. Returns whether there was one: no fault and no end is passed over. */
static inline int next(bytes *rest, entry *found) {
    for (bytes after = *rest;; *rest = after) {
        const uint8_t *length = take(&after, 4), *record;
        int32_t size = length ? get32(length) : 0;
        if (size == 0 || !(record = take(&after, (size_t)labs(size))))
            return 0;
        if (size > 0)
            return is_entry((bytes){record, (size_t)size}, found) && (*rest = after, 1);
    }
}

static inline void put_text(bytes text) {
    static const uint8_t letters[256] = {[0] = '0', ['\b'] = 'b', ['\t'] = 't', ['\n'] = 'n', ['/'] = '/', ['@'] = '@',
                                         ['\\'] = '\\'};
    uint8_t *to = out;
    for (size_t at = 0; at < text.len; at++) {
        uint8_t byte = text.at[at], letter = letters[byte];
        if (letter)
            *to++ = '\\';
        *to++ = letter ? letter : byte;
    }
    out = to;
    if (out - lines >= WRITE)
        flush();
}

static inline void put_line(const entry *found) {
    uint32_t version = found->version;
    int width = version < 10000 ? 4 : snprintf(NULL, 0, "%u", version);
    uint8_t *digit = (uint8_t *)memset(out, ' ', 5) + width;
    out = digit + 1;
    do
        *--digit = (uint8_t)('0' + version % 10);
    while (version /= 10);
    out[-1] = ' ';
    for (bytes rest = found->parts, part; take_data(&rest, &part);) {
        put_text(part);
        if (rest.len > 0)
            *out++ = '/';
    }
    *out++ = '@';
    put_text(found->realm);
    *out++ = '\n';
}

int main(int words, char **word) {
    int file = words == 2 ? open(word[1], O_RDONLY) : -1;
    ssize_t got;
    signal(SIGPIPE, SIG_IGN);
    while ((got = read(file, image + image_len, LIMIT + 1 - image_len)) > 0)
        image_len += (size_t)got;
    if (got < 0 || image_len < 2 || image_len > LIMIT || get16(image) != 0x0502)
        end(got < 0 ? 3 : 1);
    bytes rest = {image + 2, image_len - 2};
    entry found;
    while (next(&rest, &found)) {
    }
    int sound = rest.len == 0 || (rest.len >= 4 && get32(rest.at) == 0);
    out += sprintf((char *)out, "Keytab name: FILE:%s\nKVNO Principal\n---- ---------\n", word[1]);
    for (rest = (bytes){image + 2, (size_t)(rest.at - image) - 2}; next(&rest, &found);)
        put_line(&found);
    flush();
    end(!sound);
}
