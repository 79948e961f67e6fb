/* What `examples/host.c --explain` is to say, for tests/library.sh: ckpt_grounds of the archive, wrapped by the linker, first writes the
   lines for this restart to standard error. It doesn't ask for grounds but goes by document 02's words: over the positions that
   ckpt_failed answers and the table's records, each send looked for among all of its sender's. -DANSWER=.. changes the area that the
   host gets of process p: an engine that is wrong. */
#include <stdio.h>

#include "table.h"

uint32_t __real_ckpt_grounds(const uint8_t *table, size_t table_len, uint8_t *area, size_t area_len, uint32_t mask);

/* A word of the record at this place, counted from 1. */
static uint32_t at(const uint8_t *table, uint32_t p, uint32_t place, size_t word) {
    return ckpt_word(table, record_at(ckpt_word(table, 1), p, place - 1) + word);
}

/* Whether q has sent its message k to p before its position. */
static int sent(const uint8_t *table, const uint8_t *line, uint32_t q, uint32_t p, uint32_t k) {
    for (uint32_t place = 1; place <= ckpt_word(line, q); place++) {
        if (at(table, q, place, RECORD_KIND) == KIND_SEND && at(table, q, place, RECORD_A) == p && at(table, q, place, RECORD_B) == k)
            return 1;
    }
    return 0;
}

/* The line of a process that goes back, behind the number of the restart. */
static void say(const uint8_t *table, const uint8_t *line, uint32_t p, uint32_t count, int failed) {
    uint32_t position = ckpt_word(line, p), last = count, place = position + 1;
    while (last > 0 && at(table, p, last, RECORD_KIND) > KIND_FORCED) last--;
    int reloads = failed && position == last;
    fprintf(stderr, "process %u %s ", (unsigned)p, reloads ? "failed: reloads" : failed ? "failed and goes back to" : "goes back to");
    if (position == 0) fputs("its first state", stderr);
    else fprintf(stderr, "its save at %u", (unsigned)position);
    while (!reloads && (at(table, p, place, RECORD_KIND) != KIND_RECEIPT ||
                        sent(table, line, at(table, p, place, RECORD_A), p, at(table, p, place, RECORD_B)))) {
        place++;
    }
    if (!reloads) {
        fprintf(stderr, ": its receipt at %u is of message %u from process %u, which isn't sent any more", (unsigned)place,
                (unsigned)at(table, p, place, RECORD_B), (unsigned)at(table, p, place, RECORD_A));
    }
    fputc('\n', stderr);
}

uint32_t __wrap_ckpt_grounds(const uint8_t *table, size_t table_len, uint8_t *area, size_t area_len, uint32_t mask) {
    static unsigned restarts;
    uint32_t n = ckpt_word(table, 0), e = ckpt_word(table, 1);
    uint8_t line[CKPT_FAILED_LENGTH(CKPT_MAX_PROCESSES)];
    if (ckpt_failed(table, table_len, line, CKPT_FAILED_LENGTH(n), mask) != CKPT_OK) return CKPT_BAD_MASK;
    restarts++;
    for (uint32_t p = 0; p < n; p++) {
        uint32_t count = ckpt_word(table, section_at(e, p) + HEADING_COUNT);
        int failed = mask >> p & 1;
        if (!failed && ckpt_word(line, p) == count) continue;
        fprintf(stderr, "restart %u: ", restarts);
        say(table, line, p, count, failed);
    }
    uint32_t returned = __real_ckpt_grounds(table, table_len, area, area_len, mask);
#ifdef ANSWER
    for (uint32_t p = 0; p < n; p++) ANSWER;
#endif
    return returned;
}
