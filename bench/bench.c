/* bench [--short]: times each call of the archive beside the same call in plain C (peer.c) and prints, as Markdown, how long both
   take, how long the product takes compared with one pass over the table's bytes, and how its time grows with the table. The two
   take turns on fresh copies of the same tables, and each turn must leave the same numbers, tables, positions and areas; what is left
   in a scratch is open. --short makes few rounds.

   Status 1 where the two differ or an audit is not what is meant, where a call on the largest table takes more than BOUND times the
   peer's time, or where a call other than a failure line and its grounds takes more than BOUND times as long for a record place at
   E = 1,024 as at E = 256. */
#include <stdbool.h>
#include <stdio.h>
#include <stdlib.h>
#include <string.h>
#include <time.h>

#include "../tests/c/table.h"

/* The calls that are timed, in the order of their rows: the name, and what is passed for one table. */
#define EACH_CALL(X)                                                                        \
    X(checkpoint, TABLE, AREA_OF(CKPT_CHECKPOINT_LENGTH), MESSAGE.to)                       \
    X(send, TABLE, AREA_OF(CKPT_SEND_LENGTH), MESSAGE.to, MESSAGE.from)                     \
    X(receipt, TABLE, AREA_OF(CKPT_RECEIPT_LENGTH), MESSAGE.to, MESSAGE.from, MESSAGE.send) \
    X(line, TABLE, AREA_OF(CKPT_LINE_LENGTH(t->n)), t->lines[i])                            \
    X(failed, TABLE, AREA_OF(CKPT_FAILED_LENGTH(t->n)), MASK)                               \
    X(grounds, TABLE, AREA_OF(CKPT_GROUNDS_LENGTH(t->n)), MASK)                             \
    X(resend, TABLE, POSITIONS, AREA_OF(t->list))                                           \
    X(audit, TABLE, AREA_OF(CKPT_AUDIT_LENGTH), SCRATCH)                                    \
    X(fresh, TABLE, t->n, t->e)

/* The same call in plain C has the same parameters. */
#define PEER(NAME, ...) extern __typeof__(ckpt_##NAME) peer_##NAME;
EACH_CALL(PEER)

#define NUMBERED(NAME, ...) CALL_##NAME,
enum call { EACH_CALL(NUMBERED) CALLS };

#define BOUND 2.0
/* Process 0 fails. */
#define MASK 1u
/* The tables of a row, and their lists: at most as many record places as the largest table has, in tables of a 16th and more of it. */
#define PARTS 16
#define LONGEST (PARTS * CKPT_TABLE_LENGTH(CKPT_MAX_PROCESSES, CKPT_MAX_RECORDS / PARTS))
#define CUT CKPT_LINE_LENGTH(CKPT_MAX_PROCESSES)
/* The longest area, without and with that of the messages to send again. */
#define AREA CKPT_GROUNDS_LENGTH(CKPT_MAX_PROCESSES)
#define LONGEST_AREA (PARTS * CKPT_RESEND_MOST(CKPT_MAX_PROCESSES, CKPT_MAX_RECORDS / PARTS))
#define MOST_RUNS 7
#define MOST_ROUNDS 21
#define MOST_TURNS 320
#define PASSES 8

/* A reading of the clock takes as long as a call on a small table. So many small tables lie side by side and are called one after the
   other between two readings. Each is drawn for itself: a processor learns the branches that one table of nine records takes by
   heart, and a host's table changes from step to step. Of a larger one there is one, but in the series of the growth. */
#define SMALL_TABLES 64
#define SMALL 512

/* In a round each side has as many turns as meet so many record places, 20 on the largest table. */
#define PLACES_OF_A_ROUND (20 * 16 * 1024)
#define FEW_TURNS 5
#define FALL_ROUNDS 341
/* A message that goes down a ring of 16 processes takes 15 sweeps a lap. */
#define MOST_SWEEPS 7600

/* All tables begin a page, so that none is slower by where it lies. */
#define PAGE_ALIGNED __attribute__((aligned(4096)))

/* A message is also what steps on a table are made with: a checkpoint at `to`, a send from `to` to `from`, a receipt at `to` of this
   message. */
struct message {
    uint32_t to, from, send;
};

/* Tables to be called on, side by side, each of `length` bytes with a message, a line and a cut for it. The messages to send again get an
   area of `list` bytes, which is the length for any list, unless a row says otherwise. Every call returns `returned`. */
struct tables {
    uint8_t bytes[LONGEST];
    struct message messages[SMALL_TABLES];
    uint32_t lines[SMALL_TABLES];
    uint8_t cuts[SMALL_TABLES][CUT];
    size_t length, list;
    uint32_t n, e, returned;
    int count, turns;
} PAGE_ALIGNED;

/* What one side gets for a turn: copies of the tables and cuts, an area for each, `area` bytes from one to the next, a scratch as long
   as each table, and what the calls return. */
struct lent {
    uint8_t tables[LONGEST];
    uint8_t areas[LONGEST_AREA];
    uint8_t scratches[LONGEST];
    uint8_t cuts[SMALL_TABLES][CUT];
    uint32_t returned[SMALL_TABLES];
    size_t area;
} PAGE_ALIGNED;

static struct lent product_lent, peer_lent;

/* A row of what is printed, and what each run measured for it: nanoseconds, product / peer, product / pass. */
struct row {
    const struct tables *tables;
    enum call call;
    const char *of; /* a row of its own: what is special about it */
    double product[MOST_RUNS], peer[MOST_RUNS], ratio[MOST_RUNS], passes[MOST_RUNS];
};

enum { SIZES = 3, UNSAVED_ROW = SIZES * CALLS, FALL_ROW = UNSAVED_ROW + SIZES };
enum { MOVED_ROW = FALL_ROW + 1, SEARCH_ROW, TRANSIT_ROW, EXACT_ROW, FULL_ROW, UNMADE_ROW, RING_ROW, ROWS };
static const uint32_t sizes[SIZES][2] = {{3, 6}, {8, 256}, {16, 1024}};
static struct tables drawn_tables[SIZES], saved_tables[SIZES], unsaved_tables[SIZES], fall, search, transit, exact, unmade, ring;
static struct row rows[ROWS];

/* The series of the growth: n is 16, and each E is twice the one before. So many tables lie side by side that all have the record
   places of the largest: one alone would be learned by heart the better, the smaller it is. */
enum { SERIES = 5, BOUND_FROM = 2 };
static const uint32_t series[SERIES] = {64, 128, 256, 512, 1024};
static struct tables grown[SERIES];
static double growth[CALLS][SERIES][MOST_RUNS];

/* How many sweeps over the processes the ring takes. */
static uint32_t ring_sweeps;

/* Where processes 0 and 1 are before and after the fall, and its rounds. */
static struct {
    uint32_t from[2], to[2], rounds;
} fallen;

static int runs, rounds;

/* ---- tables ---- */

static uint64_t draws;

static uint32_t drawn(uint32_t below) {
    draws ^= draws << 13;
    draws ^= draws >> 7;
    draws ^= draws << 17;
    return (uint32_t)(draws >> 33) % below;
}

static void end_badly(const char *why) {
    fprintf(stderr, "bench: %s\n", why);
    exit(1);
}

static void begin_tables(struct tables *tables, uint32_t n, uint32_t e, int count) {
    tables->n = n;
    tables->e = e;
    tables->length = CKPT_TABLE_LENGTH(n, e);
    tables->list = CKPT_RESEND_MOST(n, e);
    tables->count = count;
    tables->turns = PLACES_OF_A_ROUND / (int)(n * e) / tables->count;
    if (tables->turns > MOST_TURNS) end_badly("a round has too many turns");
}

/* A table that is drawn, how many of a hundred calls on it are to be sends, and the messages that were sent and not yet received. */
static struct {
    uint8_t *bytes;
    size_t length;
    uint32_t n, e, sends;
    struct message waiting[CKPT_MAX_PROCESSES * CKPT_MAX_RECORDS];
    size_t waiting_count;
} draft;

/* A drawn call is made on the draft; what is answered is how many records it added, 0 where it was refused. */

static uint32_t draw_checkpoint(uint32_t p) {
    uint8_t area[CKPT_CHECKPOINT_LENGTH];
    return peer_checkpoint(draft.bytes, draft.length, area, sizeof area, p) == CKPT_OK;
}

static uint32_t draw_send(uint32_t p) {
    uint8_t area[CKPT_SEND_LENGTH];
    uint32_t q = (p + 1 + drawn(draft.n - 1)) % draft.n;
    if (peer_send(draft.bytes, draft.length, area, sizeof area, p, q) != CKPT_OK) return 0;
    draft.waiting[draft.waiting_count++] = (struct message){q, p, ckpt_word(area, 0)};
    return 1;
}

static uint32_t receive(uint8_t *bytes, struct message message) {
    uint8_t area[CKPT_RECEIPT_LENGTH];
    if (peer_receipt(bytes, draft.length, area, sizeof area, message.to, message.from, message.send) != CKPT_OK) return 0;
    return 1 + ckpt_word(area, 1);
}

static uint32_t draw_receipt(void) {
    if (draft.waiting_count == 0) return 0;
    size_t i = drawn((uint32_t)draft.waiting_count);
    uint32_t added = receive(draft.bytes, draft.waiting[i]);
    if (added > 0) draft.waiting[i] = draft.waiting[--draft.waiting_count];
    return added;
}

static uint32_t draw_call(void) {
    uint32_t p = drawn(draft.n), share = drawn(100);
    if (share < 10) return draw_checkpoint(p);
    return share < 10 + draft.sends ? draw_send(p) : draw_receipt();
}

static bool later(struct message a, struct message b) {
    if (a.to != b.to) return a.to > b.to;
    return a.from != b.from ? a.from > b.from : a.send > b.send;
}

/* The last message that can be received, so that its send is found late; {0, 0, 0} if none can. Its receiver can checkpoint and send
   as well, since a receipt needs no less room. */
static struct message last_message(void) {
    static uint8_t copy[LONGEST];
    struct message last = {0, 0, 0};
    for (size_t i = 0; i < draft.waiting_count; i++) {
        if (!later(draft.waiting[i], last)) continue;
        memcpy(copy, draft.bytes, draft.length);
        if (receive(copy, draft.waiting[i]) > 0) last = draft.waiting[i];
    }
    return last;
}

/* Draws table i until a message can be received in it: calls make it, until so many of its records are used. */
static void draw_table(struct tables *tables, int i, uint32_t used_records, uint32_t sends) {
    uint32_t places = tables->n * tables->e;
    for (uint32_t tries = 0; tables->messages[i].send == 0;) {
        draft.sends = sends;
        draft.bytes = tables->bytes + (size_t)i * tables->length;
        draft.length = tables->length;
        draft.n = tables->n;
        draft.e = tables->e;
        draft.waiting_count = 0;
        if (peer_fresh(draft.bytes, draft.length, draft.n, draft.e) != CKPT_OK) end_badly("no fresh table");
        for (uint32_t used = 0; used < used_records; used += draw_call()) {
            if (++tries > 100 * places) end_badly("a table cannot be drawn");
        }
        tables->messages[i] = last_message();
    }
}

/* A cut of table i, each of its positions drawn for itself. */
static void draw_cut(struct tables *tables, int i) {
    for (uint32_t p = 0; p < tables->n; p++) {
        uint32_t count = ckpt_word(tables->bytes + (size_t)i * tables->length, section_at(tables->e, p) + HEADING_COUNT);
        put_word(tables->cuts[i], p, drawn(count + 1));
    }
}

static void draw_tables(struct tables *tables, uint32_t n, uint32_t e, int count, uint32_t used_records, uint32_t sends) {
    begin_tables(tables, n, e, count);
    draws = 88172645463325252u;
    for (int i = 0; i < tables->count; i++) draw_table(tables, i, used_records, sends);
    for (int i = 0; i < tables->count; i++) draw_cut(tables, i);
}

static void half_full(struct tables *tables, uint32_t n, uint32_t e, int count) {
    draw_tables(tables, n, e, count, n * e / 2, 45);
}

/* ---- lines ---- */

/* The last line that each of the first so many processes of a table has a saved state for: the smallest of their numbers. */
static uint32_t last_line(const uint8_t *bytes, uint32_t e, uint32_t processes) {
    uint32_t last = UINT32_MAX;
    for (uint32_t p = 0; p < processes; p++) {
        uint32_t number = ckpt_word(bytes, section_at(e, p) + HEADING_NUMBER);
        if (number < last) last = number;
    }
    return last;
}

/* Lets each process save that has not, where it has room, and asks for the last line that all have a saved state for. */
static void save_all(struct tables *tables) {
    uint8_t area[CKPT_CHECKPOINT_LENGTH];
    for (int i = 0; i < tables->count; i++) {
        uint8_t *bytes = tables->bytes + (size_t)i * tables->length;
        for (uint32_t p = 0; p < tables->n; p++) {
            if (ckpt_word(bytes, section_at(tables->e, p) + HEADING_NUMBER) > 0) continue;
            peer_checkpoint(bytes, tables->length, area, sizeof area, p);
        }
        tables->lines[i] = last_line(bytes, tables->e, tables->n);
    }
}

/* Makes 0 of each number that the last process saved with, which is well laid still, and asks for the last line that the others have a
   saved state for, or for line 1 where one of them has none either. */
static void save_none_at_last(struct tables *tables) {
    uint32_t p = tables->n - 1;
    tables->returned = CKPT_NO_SAVED_STATE;
    for (int i = 0; i < tables->count; i++) {
        uint8_t *bytes = tables->bytes + (size_t)i * tables->length;
        uint32_t line = last_line(bytes, tables->e, p), count = ckpt_word(bytes, section_at(tables->e, p) + HEADING_COUNT);
        put_word(bytes, section_at(tables->e, p) + HEADING_NUMBER, 0);
        for (uint32_t r = 0; r < count; r++) {
            size_t place = record_at(tables->e, p, r);
            if (ckpt_word(bytes, place + RECORD_KIND) <= KIND_FORCED) put_word(bytes, place + RECORD_A, 0);
            put_word(bytes, place + RECORD_CARRIED, 0);
        }
        tables->lines[i] = line > 0 ? line : 1;
    }
}

/* ---- messages in transit ---- */

static uint32_t in_transit;

/* A fuller table, from more sends, and a cut with thousands of messages in transit; once more with the exact area for these. */
static void crowded(void) {
    static uint8_t area[LONGEST_AREA];
    draw_tables(&transit, CKPT_MAX_PROCESSES, CKPT_MAX_RECORDS, 1, CKPT_MAX_PROCESSES * CKPT_MAX_RECORDS / 8 * 7, 70);
    transit.turns = FEW_TURNS;
    if (peer_resend(transit.bytes, transit.length, transit.cuts[0], CUT, area, sizeof area) != CKPT_OK) end_badly("no list");
    in_transit = ckpt_word(area, 0);
    if (in_transit < 2000) end_badly("not thousands of messages are in transit");
    exact = transit;
    exact.list = CKPT_RESEND_LENGTH(in_transit);
}

/* ---- the fall ---- */

/* A word of the heading of process p. */
static size_t heading(const struct tables *table, uint32_t p, size_t word) {
    return section_at(table->e, p) + word;
}

/* A word of record r of process p. */
static uint32_t record(const struct tables *table, uint32_t p, uint32_t r, size_t word) {
    return ckpt_word(table->bytes, record_at(table->e, p, r) + word);
}

static void add_record(struct tables *table, uint32_t p, uint32_t kind, uint32_t a, uint32_t b, uint32_t carried) {
    uint32_t used = ckpt_word(table->bytes, heading(table, p, HEADING_COUNT));
    size_t place = record_at(table->e, p, used);
    put_word(table->bytes, place + RECORD_KIND, kind);
    put_word(table->bytes, place + RECORD_A, a);
    put_word(table->bytes, place + RECORD_B, b);
    put_word(table->bytes, place + RECORD_CARRIED, carried);
    put_word(table->bytes, heading(table, p, HEADING_COUNT), used + 1);
}

/* Processes 0 and 1 in 341 groups of checkpoint i, send i and a receipt: of send i + 1 at process 0, none in the last group, and of
   send i at process 1, each carrying i. It is well laid, but no calls make it: those would force a checkpoint before a receipt.

   A failed process 0 is at checkpoint 341, without its send 341. Process 1 received that in group 341 and goes to its checkpoint
   341, without its send 341, which process 0 received in group 340, and so on. Each round takes both a group back, until they are
   at their first checkpoints, at position 1. */
static void falling(struct tables *table) {
    begin_tables(table, CKPT_MAX_PROCESSES, CKPT_MAX_RECORDS, 1);
    table->turns = FEW_TURNS;
    if (peer_fresh(table->bytes, table->length, table->n, table->e) != CKPT_OK) end_badly("no fresh table");
    for (uint32_t p = 0; p < 2; p++) {
        uint32_t groups = table->e / 3;
        for (uint32_t i = 1; i <= groups; i++) {
            add_record(table, p, KIND_CHECKPOINT, i, 0, 0);
            add_record(table, p, KIND_SEND, 1 - p, i, i);
            if (p == 1) add_record(table, p, KIND_RECEIPT, 0, i, i);
            if (p == 0 && i < groups) add_record(table, p, KIND_RECEIPT, 1, i + 1, i);
        }
        put_word(table->bytes, heading(table, p, HEADING_NUMBER), groups);
        put_word(table->bytes, heading(table, p, HEADING_SENDS), groups);
    }
}

/* The last checkpoint of p among its first so many records, else 0. */
static uint32_t checkpoint_before(const struct tables *table, uint32_t p, uint32_t at) {
    while (at > 0 && record(table, p, at - 1, RECORD_KIND) > KIND_FORCED) at--;
    return at;
}

static uint32_t sends_before(const struct tables *table, uint32_t p, uint32_t at) {
    uint32_t sends = 0;
    for (uint32_t r = 0; r < at; r++) sends += record(table, p, r, RECORD_KIND) == KIND_SEND;
    return sends;
}

/* Whether process p of 0 and 1 has received what is not sent at this cut; if so, takes it to its last checkpoint before that. */
static bool lowered(const struct tables *table, uint32_t p, uint32_t at[2]) {
    uint32_t sent = sends_before(table, 1 - p, at[1 - p]);
    for (uint32_t r = 0; r < at[p]; r++) {
        if (record(table, p, r, RECORD_KIND) == KIND_RECEIPT && record(table, p, r, RECORD_B) > sent) {
            at[p] = checkpoint_before(table, p, r);
            return true;
        }
    }
    return false;
}

/* The fall when process 0 has failed, by document 01's words: a round takes back each process that received what is not sent. */
static void count_rounds(const struct tables *table) {
    uint32_t at[2];
    for (uint32_t p = 0; p < 2; p++) at[p] = ckpt_word(table->bytes, heading(table, p, HEADING_COUNT));
    at[0] = checkpoint_before(table, 0, at[0]);
    memcpy(fallen.from, at, sizeof at);
    for (bool again = true; again; fallen.rounds += again) {
        bool first = lowered(table, 0, at), second = lowered(table, 1, at);
        again = first || second;
    }
    memcpy(fallen.to, at, sizeof at);
}

/* Sees that the product gives processes 0 and 1 these grounds, and says of the others that they stay. */
static void check_grounds(const struct tables *table, const uint32_t grounds[4], const char *why) {
    uint8_t area[CKPT_GROUNDS_LENGTH(CKPT_MAX_PROCESSES)];
    if (ckpt_grounds(table->bytes, table->length, area, sizeof area, MASK) != CKPT_OK) end_badly("grounds are refused");
    for (uint32_t i = 0; i < 2 * table->n; i++) {
        if (ckpt_word(area, i) != (i < 4 ? grounds[i] : 0)) end_badly(why);
    }
}

/* Sees that the fall is the one that is meant, and that the product answers where it ends. */
static void check_fall(const struct tables *table) {
    uint8_t area[CKPT_FAILED_LENGTH(CKPT_MAX_PROCESSES)];
    count_rounds(table);
    if (fallen.rounds != FALL_ROUNDS) end_badly("the fall does not take 341 rounds");
    if (fallen.to[0] != 1 || fallen.to[1] != 1) end_badly("the fall does not end at the first checkpoints");
    if (ckpt_failed(table->bytes, table->length, area, sizeof area, MASK) != CKPT_OK) end_badly("the fall is refused");
    for (uint32_t p = 0; p < table->n; p++) {
        if (ckpt_word(area, p) != (p < 2 ? fallen.to[p] : 0)) end_badly("the product's failure line is not where the fall ends");
    }
    if (ckpt_word(area, table->n) != 3 || ckpt_word(area, table->n + 1) != 2) end_badly("not just processes 0 and 1 fall");
    /* Their first receipts are at place 3. */
    const uint32_t grounds[4] = {CKPT_GROUND_RECEIPT, 3, CKPT_GROUND_RECEIPT, 3};
    check_grounds(table, grounds, "the product's grounds are not those of the fall");
}

/* ---- a long search ---- */

/* Half of the records of process p, which had none: checkpoints. */
static void add_saves(struct tables *table, uint32_t p) {
    uint32_t saves = table->e / 2;
    for (uint32_t i = 1; i <= saves; i++) add_record(table, p, KIND_CHECKPOINT, i, 0, 0);
    put_word(table->bytes, heading(table, p, HEADING_NUMBER), saves);
}

/* A table that calls make. Process 0 has sent a message to 1, and fails. Process 1 has received this one last, behind 511 of process 2,
   which stay sent: each is looked for, the last one first, and process 2 had saved 512 times before it sent them. */
static void long_search(struct tables *table) {
    begin_tables(table, CKPT_MAX_PROCESSES, CKPT_MAX_RECORDS, 1);
    table->turns = FEW_TURNS;
    if (peer_fresh(table->bytes, table->length, table->n, table->e) != CKPT_OK) end_badly("no fresh table");
    uint32_t saves = table->e / 2, messages = saves - 1;
    add_record(table, 0, KIND_SEND, 1, 1, 0);
    put_word(table->bytes, heading(table, 0, HEADING_SENDS), 1);
    add_saves(table, 1);
    for (uint32_t k = messages; k > 0; k--) add_record(table, 1, KIND_RECEIPT, 2, k, saves);
    add_record(table, 1, KIND_RECEIPT, 0, 1, 0);
    add_saves(table, 2);
    for (uint32_t k = 1; k <= messages; k++) add_record(table, 2, KIND_SEND, 1, k, saves);
    put_word(table->bytes, heading(table, 2, HEADING_SENDS), messages);
}

static void check_search(const struct tables *table) {
    const uint32_t grounds[4] = {CKPT_GROUND_FAILED, 0, CKPT_GROUND_RECEIPT, table->e};
    check_grounds(table, grounds, "the product's ground is not the last record, behind receipts that stay");
}

/* ---- tables to audit ---- */

/* The crowded table with the last receipt of the last process that carried a number carrying one less, which is well laid and not
   made. Only who compares a receipt with its send can tell, and it is among the last records. */
static void spoilt(void) {
    unmade = transit;
    uint32_t p = unmade.n - 1, r = ckpt_word(unmade.bytes, heading(&unmade, p, HEADING_COUNT));
    while (r > 0 && (record(&unmade, p, r - 1, RECORD_KIND) != KIND_RECEIPT || record(&unmade, p, r - 1, RECORD_CARRIED) == 0)) r--;
    if (r < unmade.e / 2) end_badly("no late receipt of the last process carried a number");
    put_word(unmade.bytes, record_at(unmade.e, p, r - 1) + RECORD_CARRIED, record(&unmade, p, r - 1, RECORD_CARRIED) - 1);
}

/* A message that goes from each process to the one below, and from 0 to the last, until there is no room. So a sweep over the
   processes, 0 first, in which each goes on until its next record is a receipt of a send not yet reached, gets no further than one
   message, but for that from 0. */
static void go_round(struct tables *table) {
    begin_tables(table, CKPT_MAX_PROCESSES, CKPT_MAX_RECORDS, 1);
    table->turns = FEW_TURNS;
    if (peer_fresh(table->bytes, table->length, table->n, table->e) != CKPT_OK) end_badly("no fresh table");
    uint32_t last = table->n - 1, sends = table->e / 2;
    for (uint32_t k = 1; k <= sends; k++) {
        for (uint32_t left = table->n; left > 0; left--) {
            uint32_t p = left - 1, from = p == last ? 0 : p + 1;
            if (p < last || k > 1) add_record(table, p, KIND_RECEIPT, from, p == last ? k - 1 : k, 0);
            add_record(table, p, KIND_SEND, p == 0 ? last : p - 1, k, 0);
        }
    }
    for (uint32_t p = 0; p < table->n; p++) put_word(table->bytes, heading(table, p, HEADING_SENDS), sends);
}

/* The sweeps over the ring's processes that add a record. */
static uint32_t count_sweeps(const struct tables *table) {
    uint32_t at[CKPT_MAX_PROCESSES] = {0}, sent[CKPT_MAX_PROCESSES] = {0}, sweeps = 0;
    for (bool again = true; again; sweeps += again) {
        again = false;
        for (uint32_t p = 0; p < table->n; p++) {
            uint32_t count = ckpt_word(table->bytes, heading(table, p, HEADING_COUNT));
            for (; at[p] < count; at[p]++, again = true) {
                uint32_t kind = record(table, p, at[p], RECORD_KIND);
                if (kind == KIND_RECEIPT && record(table, p, at[p], RECORD_B) > sent[record(table, p, at[p], RECORD_A)]) break;
                sent[p] += kind == KIND_SEND;
            }
        }
    }
    return sweeps;
}

/* Sees that both sides say of the table what is meant. */
static void check_audit(const struct tables *table, uint32_t verdict) {
    static uint8_t scratch[LONGEST];
    uint8_t area[CKPT_AUDIT_LENGTH];
    if (ckpt_audit(table->bytes, table->length, area, sizeof area, scratch, table->length) != CKPT_OK) end_badly("an audit is refused");
    if (ckpt_word(area, 0) != verdict) end_badly("the product's audit is not the one that is meant");
    if (peer_audit(table->bytes, table->length, area, sizeof area, scratch, table->length) != CKPT_OK) end_badly("an audit is refused");
    if (ckpt_word(area, 0) != verdict) end_badly("the peer's audit is not the one that is meant");
}

static void check_audits(void) {
    for (int size = 0; size < SIZES; size++) check_audit(&drawn_tables[size], 1);
    check_audit(&search, 1);
    check_audit(&transit, 1);
    check_audit(&unmade, 0);
    check_audit(&ring, 1);
    ring_sweeps = count_sweeps(&ring);
    if (ring_sweeps < MOST_SWEEPS) end_badly("the ring does not take the most sweeps");
}

/* ---- measuring ---- */

static uint64_t now(void) {
    struct timespec time;
    clock_gettime(CLOCK_MONOTONIC, &time);
    return (uint64_t)time.tv_sec * 1000000000u + (uint64_t)time.tv_nsec;
}

static void lend(struct lent *lent, const struct tables *tables, enum call call) {
    lent->area = call == CALL_resend ? tables->list : AREA;
    memcpy(lent->tables, tables->bytes, (size_t)tables->count * tables->length);
    memcpy(lent->cuts, tables->cuts, sizeof lent->cuts);
    memset(lent->areas, 0xA5, (size_t)tables->count * lent->area);
    if (call == CALL_audit) memset(lent->scratches, 0xA5, (size_t)tables->count * tables->length);
}

/* A side's call on each table, one after the other. */
typedef void on_each(const struct tables *t, struct lent *lent);

#define TABLE lent->tables + (size_t)i * t->length, t->length
#define POSITIONS lent->cuts[i], CKPT_LINE_LENGTH(t->n)
#define AREA_OF(LENGTH) lent->areas + (size_t)i * lent->area, LENGTH
#define SCRATCH lent->scratches + (size_t)i * t->length, t->length
#define MESSAGE t->messages[i]
#define ON_EACH(SIDE, NAME, ...)                                                            \
    static void SIDE##_##NAME##_on_each(const struct tables *t, struct lent *lent) {        \
        for (int i = 0; i < t->count; i++) lent->returned[i] = SIDE##_##NAME(__VA_ARGS__);  \
    }
#define ON_BOTH_SIDES(NAME, ...) ON_EACH(ckpt, NAME, __VA_ARGS__) ON_EACH(peer, NAME, __VA_ARGS__)
EACH_CALL(ON_BOTH_SIDES)

#define ROW(NAME, ...) {#NAME, ckpt_##NAME##_on_each, peer_##NAME##_on_each},
static const struct {
    const char *name;
    on_each *product, *peer;
} calls[CALLS] = {EACH_CALL(ROW)};

/* A turn of one side, on fresh copies: nanoseconds for a call. */
static double turn(enum call call, const struct tables *tables, struct lent *lent) {
    on_each *on_side = lent == &product_lent ? calls[call].product : calls[call].peer;
    lend(lent, tables, call);
    uint64_t start = now();
    on_side(tables, lent);
    return (double)(now() - start) / tables->count;
}

/* Begins a message. */
static void say_row(const struct row *row) {
    fprintf(stderr, "bench: %s%s at n = %u, E = %u", calls[row->call].name, row->of ? row->of : "", row->tables->n,
            row->tables->e);
}

/* Ends the run where the two do not agree. */
static void differ(const struct row *row, const char *where) {
    say_row(row);
    fprintf(stderr, ": product and peer differ in %s\n", where);
    exit(1);
}

static void compare_numbers(const struct row *row) {
    char where[64];
    for (int i = 0; i < row->tables->count; i++) {
        unsigned a = product_lent.returned[i], b = peer_lent.returned[i];
        if (a == b) continue;
        snprintf(where, sizeof where, "the number returned: %u and %u", a, b);
        differ(row, where);
    }
}

static void compare_bytes(const struct row *row, const char *what, const uint8_t *a, const uint8_t *b, size_t length) {
    char where[64];
    size_t byte = 0;
    if (memcmp(a, b, length) == 0) return;
    while (a[byte] == b[byte]) byte++;
    snprintf(where, sizeof where, "%s, first at byte %zu", what, byte);
    differ(row, where);
}

/* A refused call does less, so all must be accepted but those that are to be refused. */
static void as_meant(const struct tables *tables, const struct lent *lent) {
    for (int i = 0; i < tables->count; i++) {
        if (lent->returned[i] != tables->returned) end_badly("a call that is timed doesn't return what is meant");
    }
}

static void same_turns(const struct row *row) {
    size_t count = (size_t)row->tables->count;
    compare_numbers(row);
    compare_bytes(row, "the table", product_lent.tables, peer_lent.tables, count * row->tables->length);
    compare_bytes(row, "the positions", product_lent.cuts[0], peer_lent.cuts[0], sizeof product_lent.cuts);
    compare_bytes(row, "the area", product_lent.areas, peer_lent.areas, count * product_lent.area);
    as_meant(row->tables, &product_lent);
}

/* Not inlined but aligned: the loop takes twice as long where it happens to lie across two lines of the cache. */
__attribute__((noinline, aligned(64))) static uint64_t sum_of_words(const uint8_t *bytes, size_t words) {
    uint64_t sum = 0, word;
    for (size_t i = 0; i < words; i++) {
        memcpy(&word, bytes + i * sizeof word, sizeof word);
        sum += word;
    }
    return sum;
}

static const uint8_t *volatile passed;
static volatile uint64_t sum;

/* Nanoseconds for one pass over a table's bytes. The table is named anew for each pass, so that none can be left out. */
static double pass(const struct tables *tables) {
    int passes = PASSES * tables->count;
    size_t words = tables->length / sizeof(uint64_t);
    passed = tables->bytes;
    uint64_t start = now();
    for (int i = 0; i < passes; i++) sum = sum_of_words(passed, words);
    return (double)(now() - start) / passes;
}

static int by_size(const void *a, const void *b) {
    double x = *(const double *)a, y = *(const double *)b;
    return (x > y) - (x < y);
}

static double median(const double *values, int count) {
    double sorted[MOST_TURNS];
    memcpy(sorted, values, (size_t)count * sizeof *values);
    qsort(sorted, (size_t)count, sizeof *sorted, by_size);
    return sorted[count / 2];
}

/* A round of both sides: the medians of their turns, which a turn that the machine interrupts does not move. The side that goes
   first changes from turn to turn. */
static void measure_round(const struct row *row, double *of_product, double *of_peer) {
    const struct tables *tables = row->tables;
    double product_turns[MOST_TURNS], peer_turns[MOST_TURNS];
    for (int i = 0; i < tables->turns; i++) {
        if (i % 2 == 0) product_turns[i] = turn(row->call, tables, &product_lent);
        peer_turns[i] = turn(row->call, tables, &peer_lent);
        if (i % 2 == 1) product_turns[i] = turn(row->call, tables, &product_lent);
        same_turns(row);
    }
    *of_product = median(product_turns, tables->turns);
    *of_peer = median(peer_turns, tables->turns);
}

/* A run of a row: the medians of its rounds. */
static void measure(struct row *row, int run) {
    double of_product[MOST_ROUNDS], of_peer[MOST_ROUNDS], of_pass[MOST_ROUNDS];
    for (int round = 0; round < rounds; round++) {
        measure_round(row, &of_product[round], &of_peer[round]);
        of_pass[round] = pass(row->tables);
    }
    row->product[run] = median(of_product, rounds);
    row->peer[run] = median(of_peer, rounds);
    row->ratio[run] = row->product[run] / row->peer[run];
    row->passes[run] = row->product[run] / median(of_pass, rounds);
}

/* Nanoseconds for a record place in one round of the product alone. */
static double place_time(const struct tables *tables, enum call call) {
    double turns[MOST_TURNS];
    for (int i = 0; i < tables->turns; i++) {
        turns[i] = turn(call, tables, &product_lent);
        as_meant(tables, &product_lent);
    }
    return median(turns, tables->turns) / (tables->n * tables->e);
}

/* A run of the growth. Each round goes through the whole series, so that a busy moment of the machine is no one size's alone. */
static void measure_growth(int run) {
    double times[CALLS][SERIES][MOST_ROUNDS];
    for (int round = 0; round < rounds; round++) {
        for (int call = 0; call < CALLS; call++) {
            for (int i = 0; i < SERIES; i++) times[call][i][round] = place_time(&grown[i], (enum call)call);
        }
    }
    for (int call = 0; call < CALLS; call++) {
        for (int i = 0; i < SERIES; i++) growth[call][i][run] = median(times[call][i], rounds);
    }
}

/* ---- printing ---- */

static void print_rows(int from, int to) {
    puts("| call       |  n |    E | product µs |  peer µs | product / peer | product / pass |");
    puts("|------------|---:|-----:|-----------:|---------:|---------------:|---------------:|");
    for (const struct row *row = rows + from; row < rows + to; row++) {
        printf("| %-10s | %2u | %4u | %10.3f | %8.3f | %14.2f | %14.1f |\n", calls[row->call].name, row->tables->n, row->tables->e,
               median(row->product, runs) / 1000, median(row->peer, runs) / 1000, median(row->ratio, runs),
               median(row->passes, runs));
    }
}

static double place(int call, int i) {
    return median(growth[call][i], runs);
}

static void print_growth(void) {
    puts("| call       |  E = 64 | E = 128 | E = 256 | E = 512 | E = 1024 | 1024 / 64 | 1024 / 256 |");
    puts("|------------|--------:|--------:|--------:|--------:|---------:|----------:|-----------:|");
    for (int call = 0; call < CALLS; call++) {
        double last = place(call, SERIES - 1);
        printf("| %-10s | %7.3f | %7.3f | %7.3f | %7.3f | %8.3f | %9.2f | %10.2f |\n", calls[call].name, place(call, 0),
               place(call, 1), place(call, 2), place(call, 3), last, last / place(call, 0), last / place(call, BOUND_FROM));
    }
}

static void print_all(void) {
    printf("- rounds: %d runs of %d, of which the medians are given; for ratios, of the runs' ratios\n", runs, rounds);
    puts("\n## Half full tables\n");
    printf("A pass is one over the table's bytes, adding them up as words of 64 bits. Times at n = %u, E = %u are of calls on %d tables, each\n"
           "drawn for itself. Before a line is asked for, each process that hasn't saved does, if it has room; the line is the last that all\n"
           "have a saved state for. Messages to send again are those of a cut whose positions are drawn.\n\n",
           sizes[0][0], sizes[0][1], SMALL_TABLES);
    print_rows(0, UNSAVED_ROW);
    puts("\n## A line that is refused\n");
    puts("The same tables with the number 0 for all that the last process saved: it has no state for the last line that the others have one\n"
         "for, or for line 1 where one of them has none either.\n");
    print_rows(UNSAVED_ROW, FALL_ROW);
    printf("\n## A failure line that falls %u rounds\n\n", fallen.rounds);
    printf("Process 0 fails. The rounds take it from position %u to %u, and process 1, which hangs on it, from %u to %u. The grounds are\n"
           "the receipts that moved them, at place 3 of either.\n\n",
           fallen.from[0], fallen.to[0], fallen.from[1], fallen.to[1]);
    print_rows(FALL_ROW, SEARCH_ROW);
    puts("\n## A ground that is long looked for\n");
    puts("Process 0 fails, and process 1 goes back by its last record, a receipt from process 0. Before it, and after process 1's last\n"
         "checkpoint, stand 511 receipts of messages that stay sent. Their sender had saved 512 times before it sent the first.\n");
    print_rows(SEARCH_ROW, TRANSIT_ROW);
    printf("\n## %u messages to send again\n\n", in_transit);
    puts("A table that is seven eighths full, from more sends. The first row's area is long enough for any list, the second's just for\n"
         "this one.\n");
    print_rows(TRANSIT_ROW, FULL_ROW);
    puts("\n## Tables to audit\n");
    printf("The first row's table is the one above. In the second's the last receipt of the last process that carried a number carries one\n"
           "less, so that no run makes it. In the third's a message goes down the ring of processes: it is made, and takes %u sweeps over\n"
           "the processes, 0 first, where each goes on until its next record is a receipt of a send not yet reached. The half full tables\n"
           "are made too.\n\n",
           ring_sweeps);
    print_rows(FULL_ROW, ROWS);
    puts("\n## Growth\n");
    puts("Nanoseconds that the product takes for each of the n × E record places, n = 16, half full, in as many tables side by side as");
    puts("have 16,384 places. They stay the same where a call's time is linear.\n");
    print_growth();
    fflush(stdout); /* what is over a bound is said after it */
}

/* The rows at the largest size and the growth between E = 256 and E = 1,024 are held to the bound. */
static int over_bounds(void) {
    int over = 0;
    const struct row *worst = &rows[FALL_ROW];
    for (const struct row *row = rows; row < rows + ROWS; row++) {
        double ratio = median(row->ratio, runs);
        if (row->tables->e < CKPT_MAX_RECORDS) continue;
        if (ratio > median(worst->ratio, runs)) worst = row;
        if (ratio <= BOUND) continue;
        over = 1;
        say_row(row);
        fprintf(stderr, " takes %.2f times as long as the peer, more than %.0f\n", ratio, BOUND);
    }
    for (int call = 0; call < CALLS; call++) {
        double ratio = place(call, SERIES - 1) / place(call, BOUND_FROM);
        if (call == CALL_failed || call == CALL_grounds || ratio <= BOUND) continue;
        over = 1;
        fprintf(stderr, "bench: %s takes %.2f times as long for a place at E = 1024 as at E = 256, more than %.0f\n",
                calls[call].name, ratio, BOUND);
    }
    printf("\nLargest product / peer at n = 16, E = 1024: %.2f, %s.\n", median(worst->ratio, runs), calls[worst->call].name);
    return over;
}

static void make_tables(void) {
    for (int size = 0; size < SIZES; size++) {
        uint32_t n = sizes[size][0], e = sizes[size][1];
        half_full(&drawn_tables[size], n, e, CKPT_TABLE_LENGTH(n, e) <= SMALL ? SMALL_TABLES : 1);
        for (int call = 0; call < CALLS; call++) {
            rows[size * CALLS + call].tables = &drawn_tables[size];
            rows[size * CALLS + call].call = (enum call)call;
        }
        saved_tables[size] = drawn_tables[size];
        save_all(&saved_tables[size]);
        rows[size * CALLS + CALL_line].tables = &saved_tables[size];
        unsaved_tables[size] = saved_tables[size];
        save_none_at_last(&unsaved_tables[size]);
        rows[UNSAVED_ROW + size] = (struct row){.tables = &unsaved_tables[size], .call = CALL_line, .of = " that is refused"};
    }
    for (int i = 0; i < SERIES; i++) {
        half_full(&grown[i], CKPT_MAX_PROCESSES, series[i], (int)(CKPT_MAX_RECORDS / series[i]));
        save_all(&grown[i]);
    }
    falling(&fall);
    long_search(&search);
    crowded();
    spoilt();
    go_round(&ring);
    rows[FALL_ROW] = (struct row){.tables = &fall, .call = CALL_failed, .of = " in the fall"};
    rows[MOVED_ROW] = (struct row){.tables = &fall, .call = CALL_grounds, .of = " in the fall"};
    rows[SEARCH_ROW] = (struct row){.tables = &search, .call = CALL_grounds, .of = " behind receipts that stay"};
    rows[TRANSIT_ROW] = (struct row){.tables = &transit, .call = CALL_resend, .of = " of thousands"};
    rows[EXACT_ROW] = (struct row){.tables = &exact, .call = CALL_resend, .of = " into an exact area"};
    rows[FULL_ROW] = (struct row){.tables = &transit, .call = CALL_audit, .of = " of a fuller table"};
    rows[UNMADE_ROW] = (struct row){.tables = &unmade, .call = CALL_audit, .of = " of what no run makes"};
    rows[RING_ROW] = (struct row){.tables = &ring, .call = CALL_audit, .of = " of the ring"};
}

int main(int argc, char **argv) {
    bool brief = argc == 2 && strcmp(argv[1], "--short") == 0;
    if (argc > 1 && !brief) {
        fprintf(stderr, "usage: bench [--short]\n");
        return 2;
    }
    runs = brief ? 3 : MOST_RUNS;
    rounds = brief ? 7 : MOST_ROUNDS;
    make_tables();
    check_fall(&fall);
    check_search(&search);
    for (int run = 0; run < runs; run++) {
        for (int row = 0; row < ROWS; row++) measure(&rows[row], run);
        measure_growth(run);
    }
    check_audits();
    print_all();
    return over_bounds();
}
