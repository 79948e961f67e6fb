/* An engine that goes wrong, to see that the fuzzer finds it (tests/overruns.sh): ckpt_line, ckpt_send, ckpt_receipt, ckpt_grounds,
   ckpt_resend and ckpt_audit of the archive, wrapped by the linker. -DTOUCH is what all but ckpt_receipt do first, one of the functions
   below, with the lent block that -DTOUCHED names; without these they do what the archive's do. -DWRONG_NUMBER makes ckpt_send return
   5 where 6 is due, -DNOTHING_CARRIED makes it leave 0 as the fourth word of its record, -DPLACE_FROM_0 makes ckpt_receipt count the
   place of the send from 0. -DCOUNT_ANSWERED makes ckpt_line answer the counts of records where a process has no saved state,
   -DBY_NUMBER refuse by the numbers in the headings, -DFRESH_REFUSED refuse line 0 where a process has no record, and
   -DEARLY_POSITIONS write the first position though it refuses the line. -DGROUND_FROM_0 makes ckpt_grounds count its places from 0,
   -DFAILED_ALONE give every failed process the ground 1, and -DEARLY_GROUNDS write the area though it refuses the mask. -DBEHIND_LIST
   makes ckpt_resend write the byte after the last entry, and -DEARLY_COUNT the area's first word though the area is too short.
   -DALWAYS_MADE makes ckpt_audit say 1 of each table, -DNEVER_MADE 0, -DEARLY_SCRATCH makes it write its scratch though it is refused,
   and -DHELD say what the scratch held before.
   Compiled without a sanitizer, as the archive is. */
#include <string.h>

#include "table.h"

uint32_t __real_ckpt_line(const uint8_t *table, size_t table_len, uint8_t *area, size_t area_len, uint32_t number);
uint32_t __real_ckpt_send(uint8_t *table, size_t table_len, uint8_t *area, size_t area_len, uint32_t p, uint32_t q);
uint32_t __real_ckpt_receipt(uint8_t *table, size_t table_len, uint8_t *area, size_t area_len, uint32_t p, uint32_t q, uint32_t k);
uint32_t __real_ckpt_grounds(const uint8_t *table, size_t table_len, uint8_t *area, size_t area_len, uint32_t mask);
uint32_t __real_ckpt_resend(const uint8_t *table, size_t table_len, const uint8_t *positions, size_t positions_len, uint8_t *area,
                            size_t area_len);

uint32_t __real_ckpt_audit(const uint8_t *table, size_t table_len, uint8_t *area, size_t area_len, uint8_t *scratch,
                           size_t scratch_len);

static inline void reads(const uint8_t *byte) {
    (void)*(const volatile uint8_t *)byte;
}

/* Writes the byte that is there, in one access, so that the write itself is what is found. */
static inline void writes(const uint8_t *byte) {
    __atomic_fetch_or((volatile uint8_t *)byte, 0, __ATOMIC_RELAXED);
}

/* A block of no bytes is left alone: it may be a null pointer, and no closed page is needed to find those. */

static inline void read_before(const uint8_t *block, size_t length) {
    if (length > 0) reads(block - 1);
}

static inline void read_behind(const uint8_t *block, size_t length) {
    if (length > 0) reads(block + length);
}

static inline void write_before(const uint8_t *block, size_t length) {
    if (length > 0) writes(block - 1);
}

static inline void write_behind(const uint8_t *block, size_t length) {
    if (length > 0) writes(block + length);
}

/* The last two are for heap blocks, so they leave alone what ends with a page: there the closed page behind it would tell. */
static inline int ends_within_page(const uint8_t *block, size_t length) {
    return length > 0 && (uintptr_t)(block + length) % 4096 != 0;
}

static inline void memcpy_behind(const uint8_t *block, size_t length) {
    uint8_t copy[2];
    if (ends_within_page(block, length)) memcpy(copy, block + length - 1, 2);
}

static inline void memset_behind(const uint8_t *block, size_t length) {
    if (ends_within_page(block, length)) memset((uint8_t *)block + length, 0, 1);
}

/* What a wrapped call does with each block that it is lent. */
static inline void lent(const char *name, const uint8_t *block, size_t length) {
#ifdef TOUCH
    if (strcmp(name, TOUCHED) == 0) TOUCH(block, length);
#else
    (void)name, (void)block, (void)length;
#endif
}

/* A word of the heading of process p. */
static inline uint32_t heading_of(const uint8_t *table, size_t p, size_t word) {
    return ckpt_word(table, section_at(ckpt_word(table, 1), p) + word);
}

uint32_t __wrap_ckpt_line(const uint8_t *table, size_t table_len, uint8_t *area, size_t area_len, uint32_t number) {
    lent("table", table, table_len);
    lent("area", area, area_len);
    uint32_t returned = __real_ckpt_line(table, table_len, area, area_len, number);
#ifdef COUNT_ANSWERED
    for (size_t p = 0; returned == CKPT_NO_SAVED_STATE && p < area_len / 4; p++) put_word(area, p, heading_of(table, p, HEADING_COUNT));
    if (returned == CKPT_NO_SAVED_STATE) return CKPT_OK;
#endif
#ifdef BY_NUMBER
    for (size_t p = 0; returned == CKPT_OK && p < area_len / 4; p++) {
        if (heading_of(table, p, HEADING_NUMBER) < number) returned = CKPT_NO_SAVED_STATE;
    }
#endif
#ifdef FRESH_REFUSED
    for (size_t p = 0; returned == CKPT_OK && number == 0 && p < area_len / 4; p++) {
        if (heading_of(table, p, HEADING_COUNT) == 0) returned = CKPT_NO_SAVED_STATE;
    }
#endif
#ifdef EARLY_POSITIONS
    if (returned == CKPT_NO_SAVED_STATE) put_word(area, 0, 0);
#endif
    return returned;
}

uint32_t __wrap_ckpt_send(uint8_t *table, size_t table_len, uint8_t *area, size_t area_len, uint32_t p, uint32_t q) {
    lent("table", table, table_len);
    lent("area", area, area_len);
    uint32_t returned = __real_ckpt_send(table, table_len, area, area_len, p, q);
#ifdef WRONG_NUMBER
    if (returned == 6) return 5;
#endif
#ifdef NOTHING_CARRIED
    if (returned == CKPT_OK) {
        size_t e = ckpt_word(table, 1), used = heading_of(table, p, HEADING_COUNT);
        put_word(table, record_at(e, p, used - 1) + RECORD_CARRIED, 0);
    }
#endif
    return returned;
}

uint32_t __wrap_ckpt_receipt(uint8_t *table, size_t table_len, uint8_t *area, size_t area_len, uint32_t p, uint32_t q, uint32_t k) {
    uint32_t returned = __real_ckpt_receipt(table, table_len, area, area_len, p, q, k);
#ifdef PLACE_FROM_0
    if (returned == CKPT_OK) put_word(area, 2, ckpt_word(area, 2) - 1);
#endif
    return returned;
}

uint32_t __wrap_ckpt_grounds(const uint8_t *table, size_t table_len, uint8_t *area, size_t area_len, uint32_t mask) {
    lent("table of grounds", table, table_len);
    lent("area of grounds", area, area_len);
    uint32_t returned = __real_ckpt_grounds(table, table_len, area, area_len, mask);
#ifdef GROUND_FROM_0
    for (size_t p = 0; returned == CKPT_OK && p < area_len / 8; p++) {
        if (ckpt_word(area, 2 * p) == CKPT_GROUND_RECEIPT) put_word(area, 2 * p + 1, ckpt_word(area, 2 * p + 1) - 1);
    }
#endif
#ifdef FAILED_ALONE
    for (size_t p = 0; returned == CKPT_OK && p < area_len / 8; p++) {
        if (mask >> p & 1) put_word(area, 2 * p, CKPT_GROUND_FAILED), put_word(area, 2 * p + 1, 0);
    }
#endif
#ifdef EARLY_GROUNDS
    if (returned == CKPT_BAD_MASK) area[area_len - 1] ^= 1;
#endif
    return returned;
}

uint32_t __wrap_ckpt_resend(const uint8_t *table, size_t table_len, const uint8_t *positions, size_t positions_len, uint8_t *area,
                            size_t area_len) {
    lent("table of resend", table, table_len);
    lent("area of resend", area, area_len);
    lent("positions", positions, positions_len);
    uint32_t returned = __real_ckpt_resend(table, table_len, positions, positions_len, area, area_len);
#ifdef BEHIND_LIST
    if (returned == CKPT_OK) {
        size_t list = CKPT_RESEND_LENGTH(ckpt_word(area, 0));
        if (list < area_len) area[list] ^= 1;
    }
#endif
#ifdef EARLY_COUNT
    if (returned == CKPT_AREA_TOO_SHORT && area_len >= 4) area[3] ^= 1;
#endif
    return returned;
}

uint32_t __wrap_ckpt_audit(const uint8_t *table, size_t table_len, uint8_t *area, size_t area_len, uint8_t *scratch,
                           size_t scratch_len) {
    lent("table of audit", table, table_len);
    lent("area of audit", area, area_len);
    lent("scratch", scratch, scratch_len);
#ifdef HELD
    uint8_t held = scratch_len > 0 ? scratch[0] & 1 : 0;
#endif
    uint32_t returned = __real_ckpt_audit(table, table_len, area, area_len, scratch, scratch_len);
#ifdef HELD
    if (returned == CKPT_OK) area[3] &= held;
#endif
#ifdef ALWAYS_MADE
    if (returned == CKPT_OK) put_word(area, 0, 1);
#endif
#ifdef NEVER_MADE
    if (returned == CKPT_OK) put_word(area, 0, 0);
#endif
#ifdef EARLY_SCRATCH
    if (returned != CKPT_OK && scratch_len > 0) scratch[scratch_len - 1] ^= 1;
#endif
    return returned;
}
