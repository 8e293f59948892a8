/* What the programs that are measured here have in common. */
#include <stdint.h>
#include <stdio.h>
#include <stdlib.h>

enum { MOST = 1 << 18 }; /* the most entries of a file that is edited */

static inline void must(int is_so, const char *what) {
    if (!is_so) {
        fprintf(stderr, "%s\n", what);
        exit(1);
    }
}

static inline unsigned number_in(const char *word) { return (unsigned)strtoul(word, NULL, 10); }

static inline uint16_t get16(const uint8_t *at) { return (uint16_t)(at[0] << 8 | at[1]); }

static inline int32_t get32(const uint8_t *at) { return (int32_t)((uint32_t)get16(at) << 16 | get16(at + 2)); }
