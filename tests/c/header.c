/* The header's names against documents 01 and 02, in what C99 and C++17 have in common. Every row of document 01's table "Where a
   call is stopped" and every row that document 02 adds is met by calls that meet no earlier one; the lengths are the documents';
   areas of no bytes are refused by their length. The audit's two verdicts are met, whatever its scratch held, and each ground. */
#include <ckpt.h>
#include <ckpt.h> /* once more: it may be included twice */

#include <stdio.h>
#include <string.h>

#include "table.h"

#if CKPT_TABLE_LENGTH(16, 1024) != 262344 || CKPT_RESEND_MOST(16, 1024) != 196612 || CKPT_BAD_SCRATCH != 14 || \
    CKPT_SCRATCH_LENGTH(16, 1024) != 262344 || CKPT_GROUNDS_LENGTH(16) != 128 || CKPT_RECORD_AT(16, 15, 1) != 1010
#error "the header's macros can't be used by the preprocessor"
#endif

#if CKPT_VERSION < 600 || CKPT_NO_SAVED_STATE != 15
#error "ckpt_audit is there since 0.4.0, ckpt_grounds since 0.5.0, and lines are refused since 0.6.0"
#endif

/* OLD_LENGTH is that of a table of version 0.1.0, OLD_RECEIPT_LENGTH that of a receipt's area before 0.3.0. */
enum { N = 3, E = 2, NO_BYTES = 0, OLD_LENGTH = 8 + 12 * N * (E + 1), OLD_RECEIPT_LENGTH = 8 };

static uint8_t table[CKPT_TABLE_LENGTH(N, E)];
static uint8_t area[CKPT_RESEND_MOST(N, E) + 1];
static uint8_t positions[CKPT_LINE_LENGTH(N) + 1]; /* as a line answers them, and a byte more */
static uint8_t scratch[CKPT_SCRATCH_LENGTH(N, E) + 1];
static int wrong;

static void same(int line, const char *what, unsigned long got, unsigned long stated) {
    if (got == stated) return;
    printf("header.c:%d: %s is %lu, and not %lu\n", line, what, got, stated);
    wrong = 1;
}
#define SAME(got, stated) same(__LINE__, #got, got, stated)

#define LENT table, sizeof table
#define POSITIONS positions, CKPT_LINE_LENGTH(N)
#define SCRATCH scratch, CKPT_SCRATCH_LENGTH(N, E)
static uint32_t fresh(uint32_t n, uint32_t e) { return ckpt_fresh(LENT, n, e); }
static uint32_t checkpoint(uint32_t p) { return ckpt_checkpoint(LENT, area, CKPT_CHECKPOINT_LENGTH, p); }
static uint32_t send(uint32_t p, uint32_t q) { return ckpt_send(LENT, area, CKPT_SEND_LENGTH, p, q); }
static uint32_t receipt(uint32_t p, uint32_t q, uint32_t k) { return ckpt_receipt(LENT, area, CKPT_RECEIPT_LENGTH, p, q, k); }
static uint32_t line(uint32_t number) { return ckpt_line(LENT, area, CKPT_LINE_LENGTH(N), number); }
static uint32_t failed(uint32_t mask) { return ckpt_failed(LENT, area, CKPT_FAILED_LENGTH(N), mask); }
static uint32_t grounds(uint32_t mask) { return ckpt_grounds(LENT, area, CKPT_GROUNDS_LENGTH(N), mask); }
static uint32_t resend(size_t length) { return ckpt_resend(LENT, POSITIONS, area, length); }
static uint32_t audit(void) { return ckpt_audit(LENT, area, CKPT_AUDIT_LENGTH, SCRATCH); }

/* All calls with areas of one length return the number, the table being lent with this length, and an area longer than the answer
   by `more` bytes. */
static void exact(uint32_t number, uint8_t *lent, size_t length, size_t more) {
    SAME(ckpt_checkpoint(lent, length, area, CKPT_CHECKPOINT_LENGTH + more, 0), number);
    SAME(ckpt_send(lent, length, area, CKPT_SEND_LENGTH + more, 0, 1), number);
    SAME(ckpt_receipt(lent, length, area, CKPT_RECEIPT_LENGTH + more, 0, 1, 1), number);
    SAME(ckpt_line(lent, length, area, CKPT_LINE_LENGTH(N) + more, 0), number);
    SAME(ckpt_failed(lent, length, area, CKPT_FAILED_LENGTH(N) + more, 0), number);
    SAME(ckpt_grounds(lent, length, area, CKPT_GROUNDS_LENGTH(N) + more, 0), number);
    SAME(ckpt_audit(lent, length, area, CKPT_AUDIT_LENGTH + more, SCRATCH), number);
}

/* All calls but fresh return the number, the table being lent with this length. */
static void all(uint32_t number, uint8_t *lent, size_t length) {
    exact(number, lent, length, 0);
    SAME(ckpt_resend(lent, length, POSITIONS, area, sizeof area), number);
}

/* The table is not well laid with this word in the place of one. */
static void not_well_laid_with(size_t i, uint32_t word) {
    uint32_t before = ckpt_word(table, i);
    put_word(table, i, word);
    all(CKPT_NOT_WELL_LAID, table, sizeof table);
    put_word(table, i, before);
}

/* The rows' numbers, as the documents have them. */
static void numbers(void) {
    SAME(CKPT_OK, 0);
    SAME(CKPT_BAD_DIMENSIONS, 1);
    SAME(CKPT_BAD_TABLE_LENGTH, 2);
    SAME(CKPT_NOT_WELL_LAID, 3);
    SAME(CKPT_BAD_AREA_LENGTH, 4);
    SAME(CKPT_BAD_PROCESS, 5);
    SAME(CKPT_BAD_OTHER_PROCESS, 6);
    SAME(CKPT_NOT_SENT, 7);
    SAME(CKPT_ALREADY_RECEIVED, 8);
    SAME(CKPT_NO_RECORDS_LEFT, 9);
    SAME(CKPT_NUMBER_AT_LIMIT, 10);
    SAME(CKPT_BAD_MASK, 11);
    SAME(CKPT_BAD_POSITIONS, 12);
    SAME(CKPT_AREA_TOO_SHORT, 13);
    SAME(CKPT_BAD_SCRATCH, 14);
    SAME(CKPT_NO_SAVED_STATE, 15);
    SAME(CKPT_GROUND_STAYS, 0);
    SAME(CKPT_GROUND_FAILED, 1);
    SAME(CKPT_GROUND_RECEIPT, 2);
}

/* Rows of the table itself: its length, n and E, its words. */
static void table_rows(void) {
    SAME(fresh(0, E), CKPT_BAD_DIMENSIONS);
    SAME(fresh(CKPT_MAX_PROCESSES + 1, E), CKPT_BAD_DIMENSIONS);
    SAME(fresh(N, 0), CKPT_BAD_DIMENSIONS);
    SAME(fresh(N, CKPT_MAX_RECORDS + 1), CKPT_BAD_DIMENSIONS);
    SAME(fresh(CKPT_MAX_PROCESSES, CKPT_MAX_RECORDS), CKPT_BAD_TABLE_LENGTH);
    SAME(ckpt_fresh(table, sizeof table - 1, N, E), CKPT_BAD_TABLE_LENGTH);
    SAME(fresh(N, E), CKPT_OK);
    all(CKPT_BAD_TABLE_LENGTH, table, 7);
    all(CKPT_BAD_TABLE_LENGTH, table, sizeof table - 1);
    all(CKPT_BAD_TABLE_LENGTH, table, OLD_LENGTH);
    SAME(ckpt_fresh(table, OLD_LENGTH, N, E), CKPT_BAD_TABLE_LENGTH);
    put_word(table, 0, CKPT_MAX_PROCESSES + 1);
    all(CKPT_BAD_DIMENSIONS, table, sizeof table);
    put_word(table, 0, N);
    not_well_laid_with(section_at(E, N) - 1, 1);
}

static void later_rows(void) {
    SAME(fresh(N, E), CKPT_OK);
    exact(CKPT_BAD_AREA_LENGTH, table, sizeof table, 1);
    exact(CKPT_BAD_AREA_LENGTH, table, sizeof table, (size_t)0 - 1); /* one byte shorter */
    SAME(ckpt_receipt(LENT, area, OLD_RECEIPT_LENGTH, 1, 0, 1), CKPT_BAD_AREA_LENGTH);
    SAME(checkpoint(N), CKPT_BAD_PROCESS);
    SAME(send(N, 0), CKPT_BAD_PROCESS);
    SAME(receipt(N, 0, 1), CKPT_BAD_PROCESS);
    SAME(send(0, N), CKPT_BAD_OTHER_PROCESS);
    SAME(send(0, 0), CKPT_BAD_OTHER_PROCESS);
    SAME(receipt(0, N, 1), CKPT_BAD_OTHER_PROCESS);
    SAME(receipt(0, 0, 1), CKPT_BAD_OTHER_PROCESS);
    SAME(checkpoint(0), CKPT_OK);
    SAME(ckpt_word(area, 0), 1);
    SAME(send(0, 1), CKPT_OK);
    SAME(receipt(1, 0, 0), CKPT_NOT_SENT);
    SAME(receipt(1, 0, 2), CKPT_NOT_SENT);
    SAME(receipt(2, 0, 1), CKPT_NOT_SENT);
    SAME(receipt(1, 0, 1), CKPT_OK);
    SAME(ckpt_word(area, 0), 1);
    SAME(ckpt_word(area, 1), 1);
    SAME(ckpt_word(area, 2), 2); /* the send is behind a checkpoint */
    SAME(ckpt_word(area, 3), 2); /* and the receipt behind a forced one */
    SAME(receipt(1, 0, 1), CKPT_ALREADY_RECEIVED);
    SAME(checkpoint(0), CKPT_NO_RECORDS_LEFT);
    SAME(send(1, 0), CKPT_NO_RECORDS_LEFT);
    SAME(line(0xffffffff), CKPT_NO_SAVED_STATE);
    SAME(failed(1u << N), CKPT_BAD_MASK);
    SAME(failed(1), CKPT_OK);
    SAME(ckpt_word(area, N), 3);
    SAME(ckpt_word(area, N + 1), 2);
}

/* Refused with this number, grounds of an area of this length leave it as it was. */
static void grounds_refused(uint32_t number, size_t area_length, uint32_t mask) {
    memset(area, 0xee, sizeof area);
    SAME(ckpt_grounds(LENT, area, area_length, mask), number);
    for (size_t i = 0; i < sizeof area; i++) SAME(area[i], 0xee);
}

/* The ground of process p and its place, and not a byte after those of the last process. */
static void grounded(uint32_t p, uint32_t ground, uint32_t place) {
    SAME(ckpt_word(area, 2 * p), ground);
    SAME(ckpt_word(area, 2 * p + 1), place);
    SAME(area[CKPT_GROUNDS_LENGTH(N)], 0xee);
}

/* On the table that later_rows left: process 0 has a checkpoint and the send (0, 1), process 1 a forced checkpoint and its receipt,
   process 2 nothing. */
static void ground_rows(void) {
    size_t length = CKPT_GROUNDS_LENGTH(N), received = CKPT_RECORD_AT(E, 1, 2);
    grounds_refused(CKPT_BAD_AREA_LENGTH, 0, 0);
    grounds_refused(CKPT_BAD_AREA_LENGTH, length - 1, 1u << N);
    grounds_refused(CKPT_BAD_AREA_LENGTH, length + 1, 0);
    grounds_refused(CKPT_BAD_AREA_LENGTH, CKPT_FAILED_LENGTH(N), 0);
    grounds_refused(CKPT_BAD_AREA_LENGTH, CKPT_LINE_LENGTH(N), 0);
    grounds_refused(CKPT_BAD_MASK, length, 1u << N);
    grounds_refused(CKPT_BAD_MASK, length, 1u << 31);
    grounds_refused(CKPT_BAD_MASK, length, 0xffffffff);
    memset(area, 0xee, sizeof area);
    SAME(grounds(0), CKPT_OK);
    for (uint32_t p = 0; p < N; p++) grounded(p, CKPT_GROUND_STAYS, 0);
    SAME(grounds(1), CKPT_OK);
    grounded(0, CKPT_GROUND_FAILED, 0);
    grounded(1, CKPT_GROUND_RECEIPT, 2);
    grounded(2, CKPT_GROUND_STAYS, 0);
    SAME(ckpt_word(table, received + RECORD_KIND), KIND_RECEIPT); /* the place leads to the message (0, 1) */
    SAME(ckpt_word(table, received + RECORD_A), 0);
    SAME(ckpt_word(table, received + RECORD_B), 1);
    SAME(grounds((1u << N) - 1), CKPT_OK);
    for (uint32_t p = 0; p < N; p++) grounded(p, CKPT_GROUND_FAILED, 0); /* process 2 at 0 */
    put_word(table, record_at(E, 0, 1) + RECORD_A, 2);                   /* the send goes to another: a table of no run */
    SAME(grounds(0), CKPT_OK);
    grounded(0, CKPT_GROUND_STAYS, 0);
    grounded(1, CKPT_GROUND_RECEIPT, 2);
    put_word(table, record_at(E, 0, 1) + RECORD_A, 1);
}

/* On the table that later_rows left: what was carried stands in the fourth word of send and receipt, and is part of what is
   well laid. */
static void carried(void) {
    size_t sent = record_at(E, 0, 1) + RECORD_CARRIED, received = record_at(E, 1, 1) + RECORD_CARRIED;
    size_t saved = record_at(E, 0, 0) + RECORD_CARRIED;
    SAME(ckpt_word(table, saved), 0);
    SAME(ckpt_word(table, sent), 1);
    SAME(ckpt_word(table, received), 1);
    not_well_laid_with(saved, 1);
    not_well_laid_with(sent, 0);
    not_well_laid_with(received, 2);
    put_word(table, received, 0);
    SAME(line(0), CKPT_OK);
    put_word(table, received, 1);
}

/* On the table that later_rows left: process 0 has sent (0, 1), process 1 was forced and has got it. */
static void resend_rows(void) {
    put_word(positions, 0, 2);
    put_word(positions, 1, 1);
    SAME(ckpt_resend(LENT, POSITIONS - 1, area, sizeof area), CKPT_BAD_POSITIONS);
    SAME(ckpt_resend(LENT, POSITIONS + 1, area, sizeof area), CKPT_BAD_POSITIONS);
    SAME(resend(CKPT_RESEND_LENGTH(1) - 1), CKPT_AREA_TOO_SHORT);
    memset(area, 0xee, sizeof area);
    SAME(resend(CKPT_RESEND_MOST(N, E)), CKPT_OK);
    SAME(ckpt_word(area, 0), 1);
    SAME(ckpt_word(area, 1), 0);
    SAME(ckpt_word(area, 2), 1);
    SAME(ckpt_word(area, 3), 1);
    SAME(ckpt_word(area, 4), 0xeeeeeeee);
    SAME(resend(CKPT_RESEND_LENGTH(1)), CKPT_OK);
    put_word(positions, 1, 2);
    SAME(resend(CKPT_RESEND_LENGTH(0)), CKPT_OK);
    SAME(ckpt_word(area, 0), 0);
    put_word(positions, 0, 3);
    SAME(resend(0), CKPT_BAD_POSITIONS);
    put_word(positions, 0, 0xffffffff);
    SAME(resend(sizeof area), CKPT_BAD_POSITIONS);
}

/* Audits the table, and leaves the scratch as it was: the call is refused with this number. */
static void audit_refused(uint32_t number, size_t area_length, size_t scratch_length) {
    memset(area, 0xee, sizeof area);
    memset(scratch, 0xee, sizeof scratch);
    SAME(ckpt_audit(LENT, area, area_length, scratch, scratch_length), number);
    for (size_t i = 0; i < sizeof area; i++) SAME(area[i], 0xee);
    for (size_t i = 0; i < sizeof scratch; i++) SAME(scratch[i], 0xee);
}

/* The audit gives the table this verdict, whatever the scratch held. */
static void audited(uint32_t verdict) {
    for (int held = 0; held < 0x100; held += 0x33) {
        memset(area, 0xee, sizeof area);
        memset(scratch, held, sizeof scratch);
        SAME(audit(), CKPT_OK);
        SAME(ckpt_word(area, 0), verdict);
        SAME(area[CKPT_AUDIT_LENGTH], 0xee);
        SAME(scratch[CKPT_SCRATCH_LENGTH(N, E)], (unsigned long)held);
    }
}

/* On the table that later_rows left, which calls made, then with words of it changed. */
static void audit_rows(void) {
    size_t length = CKPT_SCRATCH_LENGTH(N, E), sent = record_at(E, 0, 1), received = record_at(E, 1, 1);
    audit_refused(CKPT_BAD_AREA_LENGTH, 0, length);
    audit_refused(CKPT_BAD_AREA_LENGTH, CKPT_AUDIT_LENGTH + 1, length + 1);
    audit_refused(CKPT_BAD_SCRATCH, CKPT_AUDIT_LENGTH, 0);
    audit_refused(CKPT_BAD_SCRATCH, CKPT_AUDIT_LENGTH, length - 1);
    audit_refused(CKPT_BAD_SCRATCH, CKPT_AUDIT_LENGTH, length + 1);
    audited(1);
    put_word(table, received + RECORD_CARRIED, 0); /* the send carried 1 */
    audited(0);
    put_word(table, received + RECORD_CARRIED, 2);
    audit_refused(CKPT_NOT_WELL_LAID, CKPT_AUDIT_LENGTH, length);
    audit_refused(CKPT_NOT_WELL_LAID, 0, 0);
    put_word(table, received + RECORD_CARRIED, 1);
    put_word(table, sent + RECORD_A, 2); /* the send goes to another */
    audited(0);
    put_word(table, sent + RECORD_A, 1);
    audited(1);
}

/* Refused with this number, a line of an area of this length leaves it as it was. */
static void line_refused(uint32_t number, size_t area_length, uint32_t asked) {
    memset(area, 0xee, sizeof area);
    SAME(ckpt_line(LENT, area, area_length, asked), number);
    for (size_t i = 0; i < sizeof area; i++) SAME(area[i], 0xee);
}

/* The line has all processes at this position, and not a byte after the last one. */
static void lined(uint32_t asked, uint32_t position) {
    memset(area, 0xee, sizeof area);
    SAME(line(asked), CKPT_OK);
    for (uint32_t p = 0; p < N; p++) SAME(ckpt_word(area, p), position);
    SAME(area[CKPT_LINE_LENGTH(N)], 0xee);
}

/* The number at which process p has its checkpoint at this place, counted from 1. */
static void put_number(uint32_t p, uint32_t place, uint32_t number) {
    put_word(table, CKPT_RECORD_AT(E, p, place) + RECORD_A, number);
    put_word(table, section_at(E, p) + HEADING_NUMBER, number);
}

/* On the table that later_rows left: processes 0 and 1 have a checkpoint numbered 1 as their first record, process 2 has nothing. Then
   process 2 saves too, and at last the table is one of no run, in which process 2's numbers fall. */
static void line_rows(void) {
    size_t length = CKPT_LINE_LENGTH(N);
    lined(0, 0);
    line_refused(CKPT_NO_SAVED_STATE, length, 1);
    line_refused(CKPT_NO_SAVED_STATE, length, 0x80000000);
    line_refused(CKPT_NO_SAVED_STATE, length, 0xffffffff);
    line_refused(CKPT_BAD_AREA_LENGTH, 0, 1);
    line_refused(CKPT_BAD_AREA_LENGTH, length - 1, 1);
    line_refused(CKPT_BAD_AREA_LENGTH, length + 1, 0xffffffff);
    line_refused(CKPT_BAD_AREA_LENGTH, CKPT_FAILED_LENGTH(N), 1);
    SAME(checkpoint(2), CKPT_OK);
    lined(0, 0);
    lined(1, 1);
    line_refused(CKPT_NO_SAVED_STATE, length, 2);
    SAME(checkpoint(2), CKPT_OK);
    put_number(0, 1, 5);
    put_word(table, CKPT_RECORD_AT(E, 0, 2) + RECORD_CARRIED, 5);
    put_number(1, 1, 4);
    put_number(2, 1, 5);
    put_number(2, 2, 2);
    lined(2, 1);
    lined(3, 1); /* above the number that process 2 has now */
    lined(4, 1);
    line_refused(CKPT_NO_SAVED_STATE, length, 5); /* process 1 alone lacks it */
}

/* A table of no run: two receipts wait for each other. */
static void audit_of_two_that_wait(void) {
    SAME(fresh(N, E), CKPT_OK);
    audited(1);
    SAME(send(0, 1), CKPT_OK);
    SAME(receipt(1, 0, 1), CKPT_OK);
    SAME(send(1, 0), CKPT_OK);
    SAME(receipt(0, 1, 1), CKPT_OK);
    audited(1);
    /* Process 0 receives before it sends. */
    const uint32_t words[2 * CKPT_RECORD_WORDS] = {KIND_RECEIPT, 1, 1, 0, KIND_SEND, 1, 1, 0};
    for (size_t i = 0; i < sizeof words / sizeof words[0]; i++) put_word(table, record_at(E, 0, 0) + i, words[i]);
    SAME(line(0), CKPT_OK);
    audited(0);
}

/* Number 10 is met only by a table that no call makes: n = 1, E = 2, one kind 1 record numbered 2. */
static void number_at_limit(void) {
    memset(table, 0, sizeof table);
    put_word(table, 0, 1);
    put_word(table, 1, 2);
    put_word(table, section_at(2, 0) + HEADING_COUNT, 1);
    put_word(table, section_at(2, 0) + HEADING_NUMBER, 2);
    put_word(table, record_at(2, 0, 0) + RECORD_KIND, KIND_CHECKPOINT);
    put_word(table, record_at(2, 0, 0) + RECORD_A, 2);
    SAME(ckpt_checkpoint(table, CKPT_TABLE_LENGTH(1, 2), area, CKPT_CHECKPOINT_LENGTH, 0), CKPT_NUMBER_AT_LIMIT);
}

/* A null pointer with length 0 is an area of no bytes. */
static void no_bytes(void) {
    SAME(ckpt_fresh(NULL, NO_BYTES, N, E), CKPT_BAD_TABLE_LENGTH);
    SAME(ckpt_fresh(NULL, NO_BYTES, 0, E), CKPT_BAD_DIMENSIONS);
    all(CKPT_BAD_TABLE_LENGTH, NULL, NO_BYTES);
    SAME(fresh(N, E), CKPT_OK);
    SAME(ckpt_checkpoint(LENT, NULL, NO_BYTES, 0), CKPT_BAD_AREA_LENGTH);
    SAME(ckpt_send(LENT, NULL, NO_BYTES, 0, 1), CKPT_BAD_AREA_LENGTH);
    SAME(ckpt_receipt(LENT, NULL, NO_BYTES, 0, 1, 1), CKPT_BAD_AREA_LENGTH);
    SAME(ckpt_line(LENT, NULL, NO_BYTES, 0), CKPT_BAD_AREA_LENGTH);
    SAME(ckpt_failed(LENT, NULL, NO_BYTES, 0), CKPT_BAD_AREA_LENGTH);
    SAME(ckpt_grounds(LENT, NULL, NO_BYTES, 0), CKPT_BAD_AREA_LENGTH);
    SAME(ckpt_grounds(LENT, NULL, NO_BYTES, 1u << N), CKPT_BAD_AREA_LENGTH);
    SAME(ckpt_resend(LENT, NULL, NO_BYTES, NULL, NO_BYTES), CKPT_BAD_POSITIONS);
    memset(positions, 0, sizeof positions);
    SAME(ckpt_resend(LENT, POSITIONS, NULL, NO_BYTES), CKPT_AREA_TOO_SHORT);
    SAME(ckpt_audit(LENT, NULL, NO_BYTES, NULL, NO_BYTES), CKPT_BAD_AREA_LENGTH);
    SAME(ckpt_audit(LENT, area, CKPT_AUDIT_LENGTH, NULL, NO_BYTES), CKPT_BAD_SCRATCH);
    SAME(ckpt_audit(NULL, NO_BYTES, NULL, NO_BYTES, NULL, NO_BYTES), CKPT_BAD_TABLE_LENGTH);
}

static void lengths(void) {
    uint32_t n = 8, e = 256;
    uint8_t high[8] = {0, 0, 0, 0, 0xff, 0x80, 0x01, 0xfe};
    SAME(CKPT_RECORD_WORDS, 4);
    SAME(CKPT_TABLE_LENGTH(1, 1), 36);
    SAME(CKPT_TABLE_LENGTH(2, 4), 160);
    SAME(CKPT_TABLE_LENGTH(n, e), 32872);
    SAME(CKPT_TABLE_LENGTH(n + 8, 4 * e), 262344);
    SAME(CKPT_TABLE_LENGTH(n + 1, e + 1), 8 + 4 * 9 * (3 + 4 * 257));
    SAME(CKPT_TABLE_LENGTH(N, E), 4 * section_at(E, N));
    SAME(CKPT_RECORD_AT(E, 0, 1), 5);
    SAME(CKPT_RECORD_AT(e, n - 1, e), record_at(e, n - 1, e - 1));
    SAME(CKPT_RECORD_AT(e + 1, n + 1, e - 1), record_at(257, 9, 254));
    SAME(CKPT_CHECKPOINT_LENGTH, 4);
    SAME(CKPT_SEND_LENGTH, 8);
    SAME(CKPT_RECEIPT_LENGTH, 16);
    SAME(CKPT_LINE_LENGTH(n + 1), 36);
    SAME(CKPT_FAILED_LENGTH(n + 1), 44);
    SAME(CKPT_GROUNDS_LENGTH(1), 8);
    SAME(CKPT_GROUNDS_LENGTH(n + 1), 72);
    SAME(CKPT_RESEND_LENGTH(0), 4);
    SAME(CKPT_RESEND_LENGTH(n + 1), 112);
    SAME(CKPT_RESEND_MOST(n + 1, e + 1), 4 + 12 * 9 * 257);
    SAME(CKPT_RESEND_MOST(CKPT_MAX_PROCESSES, CKPT_MAX_RECORDS), 196612);
    SAME(CKPT_AUDIT_LENGTH, 4);
    SAME(CKPT_SCRATCH_LENGTH(1, 1), 36);
    SAME(CKPT_SCRATCH_LENGTH(n, e), 32872);
    SAME(CKPT_SCRATCH_LENGTH(n + 1, e + 1), CKPT_TABLE_LENGTH(9, 257));
    SAME(ckpt_word(high, 1), 0xff8001fe);
}

/* The number and the text are of the same three. */
static void version(void) {
    char text[32];
    snprintf(text, sizeof text, "%d.%d.%d", CKPT_VERSION / 10000, CKPT_VERSION / 100 % 100, CKPT_VERSION % 100);
    SAME(strcmp(text, CKPT_VERSION_STRING) == 0, 1);
    SAME(CKPT_VERSION / 10000, CKPT_VERSION_MAJOR);
    SAME(CKPT_VERSION / 100 % 100, CKPT_VERSION_MINOR);
    SAME(CKPT_VERSION % 100, CKPT_VERSION_PATCH);
}

int main(void) {
    numbers();
    version();
    lengths();
    table_rows();
    later_rows();
    ground_rows();
    carried();
    resend_rows();
    audit_rows();
    line_rows();
    audit_of_two_that_wait();
    number_at_limit();
    no_bytes();
    return wrong;
}
