/* What stands where in a table, in words: document 01, "The table", with document 02's fourth word of a record. For the hosts beside
   it and the bench, which write tables that no call makes. In what C99 and C++17 have in common. */
#ifndef TABLE_H
#define TABLE_H

#include <ckpt.h>

/* Words of a table before its sections, of a section before its records, and of a record. */
enum { HEAD_WORDS = 2, HEADING_WORDS = 3, RECORD_WORDS = CKPT_RECORD_WORDS };
/* Which they are. */
enum { HEADING_COUNT, HEADING_NUMBER, HEADING_SENDS };
enum { RECORD_KIND, RECORD_A, RECORD_B, RECORD_CARRIED };

enum { KIND_CHECKPOINT = 1, KIND_FORCED, KIND_SEND, KIND_RECEIPT };

/* The word at which the section of process p begins, or the table ends where p is n. */
static inline size_t section_at(size_t e, size_t p) {
    return HEAD_WORDS + p * (HEADING_WORDS + RECORD_WORDS * e);
}

/* The word at which record r of process p begins, the first being 0. */
static inline size_t record_at(size_t e, size_t p, size_t r) {
    return section_at(e, p) + HEADING_WORDS + RECORD_WORDS * r;
}

static inline void put_word(uint8_t *table, size_t i, uint32_t value) {
    for (size_t byte = 0; byte < 4; byte++) table[4 * i + byte] = (uint8_t)(value >> (24 - 8 * byte) & 0xff);
}

#endif
