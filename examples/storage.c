/* A checkpoint table that is kept in a file across power cuts.

   The file has two slots, written in turn. Each has the number of its save, the table, and a sum over both. A cut tears at most the
   slot that is being written. A start takes the newer whole slot, and has the engine audit its table before it believes anything. A
   call counts once the table is saved: only then is its answer acted on, here by printing it.

   This host keeps the table alone, and nobody else may write the file. A host with states and messages, as examples/host.c, saves
   them before the table that names them, and lets a message go after it.

   storage FILE            makes a few calls on the table in FILE, or on a fresh one where there is no FILE
   storage FILE --show     prints the table's records
   storage FILE --invent   saves two receipts that wait for each other, which no run of calls leaves, for the next start to refuse

   The status is 1, and a message says why, where no table is believed or it can't be saved. */
#define _POSIX_C_SOURCE 200809L
#include <errno.h>
#include <fcntl.h>
#include <libgen.h>
#include <stdbool.h>
#include <stdio.h>
#include <stdlib.h>
#include <string.h>
#include <unistd.h>

#include <ckpt.h>

enum { N = 3, E = 8, CALLS = 5 };

/* A slot has blocks of its own, since a cut may take the whole block that is being written. */
enum { TABLE = CKPT_TABLE_LENGTH(N, E), SUMMED = 8 + TABLE, SLOT = SUMMED + 4 };
enum { BLOCK = 4096, ROOM = (SLOT + BLOCK - 1) / BLOCK * BLOCK, LENGTH = 2 * ROOM };

static const char *path;
static int file;
static uint64_t saves; /* the number of the last save; save s stands in slot s % 2 */
static uint8_t table[TABLE];

static void stop(const char *why) {
    fprintf(stderr, "%s: %s\n", path, why);
    exit(1);
}

static void must(uint32_t number) {
    if (number != CKPT_OK) stop("a call was refused that never is");
}

static void put(uint8_t *bytes, int count, uint64_t value) {
    for (; count-- > 0; value >>= 8) bytes[count] = (uint8_t)value;
}

/* CRC-32, as in Ethernet: a torn slot has the right one once in four billion. */
static uint32_t sum(const uint8_t *slot) {
    uint32_t crc = 0xffffffff;
    for (int i = 0; i < SUMMED; i++) {
        crc ^= slot[i];
        for (int bit = 0; bit < 8; bit++) crc = crc >> 1 ^ (crc & 1 ? 0xedb88320 : 0);
    }
    return ~crc;
}

static uint64_t number(const uint8_t *slot) { return (uint64_t)ckpt_word(slot, 0) << 32 | ckpt_word(slot, 1); }

/* Whether a slot is whole: its sum fits, and it stands where a save of its number goes. A torn one may not even be readable. */
static bool whole(uint8_t *slot, unsigned i) {
    return pread(file, slot, SLOT, (off_t)i * ROOM) == SLOT && sum(slot) == ckpt_word(slot, SUMMED / 4) && number(slot) % 2 == i;
}

/* Takes the newer whole slot. The file got its name with a whole slot in it, and a save leaves the other slot alone. */
static void load(void) {
    uint8_t slot[SLOT];
    if (lseek(file, 0, SEEK_END) != LENGTH) stop("refused: it hasn't the length of two slots");
    for (unsigned i = 0; i < 2; i++) {
        if (!whole(slot, i) || number(slot) <= saves) continue;
        saves = number(slot);
        memcpy(table, slot + 8, TABLE);
    }
    if (saves == 0) stop("refused: neither slot is whole, and no power cut leaves that");
}

/* Believes the loaded table, or stops. One with a right sum that no run leaves is not torn: it was damaged before it was summed, or
   invented. The older slot is no way out then, since it lacks a call that may have been acted on, and may be no better. */
static void audit(void) {
    static uint8_t scratch[CKPT_SCRATCH_LENGTH(N, E)];
    uint8_t made[CKPT_AUDIT_LENGTH];
    uint32_t returned = ckpt_audit(table, TABLE, made, sizeof made, scratch, sizeof scratch);
    if (returned == CKPT_NOT_WELL_LAID) stop("refused: its words are not such as any table has");
    if (returned != CKPT_OK) stop("refused: its length or dimensions are not such as any table has");
    if (ckpt_word(made, 0) != 1) stop("refused: no run of calls leaves this table");
    if (ckpt_word(table, 0) != N || ckpt_word(table, 1) != E) stop("refused: its dimensions are not this host's");
}

/* Writes over the slot that was not taken, the older or a torn one, and waits until that is in storage. */
static void save(void) {
    uint8_t slot[SLOT];
    put(slot, 8, ++saves);
    memcpy(slot + 8, table, TABLE);
    put(slot + SUMMED, 4, sum(slot));
    if (pwrite(file, slot, SLOT, (off_t)(saves % 2) * ROOM) != SLOT || fsync(file)) stop("the table can't be saved");
}

/* Waits until the file and its name are in storage: a start that was killed may have left them to the next cut. */
static void keep(void) {
    char name[4096];
    snprintf(name, sizeof name, "%s", path);
    int folder = open(dirname(name), O_RDONLY);
    if (folder < 0 || fsync(folder) || fsync(file)) stop(strerror(errno));
    close(folder);
}

/* A fresh table. Its file gets its name when it is whole: a cut before that leaves no file. */
static void begin(void) {
    char name[4096];
    if (snprintf(name, sizeof name, "%s.new", path) >= (int)sizeof name) stop("its name is too long");
    file = open(name, O_RDWR | O_CREAT | O_TRUNC, 0666);
    if (file < 0 || ftruncate(file, LENGTH)) stop(strerror(errno));
    must(ckpt_fresh(table, TABLE, N, E));
    save();
    if (rename(name, path)) stop(strerror(errno));
    printf("%s: begun with a fresh table\n", path);
}

/* Saves what an accepted call left, and only then tells its answer. */
static bool accepted(uint32_t returned, const char *call, uint32_t p, const uint8_t *area, size_t words) {
    if (returned == CKPT_NO_RECORDS_LEFT) {
        printf("%s at %u: no records left; a host goes on with a fresh table, as examples/host.c does\n", call, (unsigned)p);
        return false;
    }
    must(returned);
    save();
    printf("%s at %u:", call, (unsigned)p);
    for (size_t i = 0; i < words; i++) printf(" %u", (unsigned)ckpt_word(area, i));
    puts("");
    return true;
}

/* Makes one call, chosen by the table alone; whether it was accepted. */
static bool turn(void) {
    static uint8_t transit[CKPT_RESEND_MOST(N, E)];
    uint8_t cut[CKPT_FAILED_LENGTH(N)], area[CKPT_RECEIPT_LENGTH];
    uint32_t records = 0;
    must(ckpt_failed(table, TABLE, cut, sizeof cut, 0)); /* nobody failed: these are the counts of records */
    must(ckpt_resend(table, TABLE, cut, CKPT_LINE_LENGTH(N), transit, sizeof transit));
    for (uint32_t p = 0; p < N; p++) records += ckpt_word(cut, p);
    uint32_t p = records / 2 % N, waiting = ckpt_word(transit, 0);
    if (records % 5 == 0) {
        return accepted(ckpt_checkpoint(table, TABLE, area, CKPT_CHECKPOINT_LENGTH, p), "checkpoint", p, area, 1);
    }
    if (waiting < 2) return accepted(ckpt_send(table, TABLE, area, CKPT_SEND_LENGTH, p, (p + 1) % N), "send", p, area, 2);
    size_t i = 3 * (records % waiting) + 1; /* not always the oldest: messages overtake each other */
    uint32_t q = ckpt_word(transit, i), k = ckpt_word(transit, i + 1), to = ckpt_word(transit, i + 2);
    return accepted(ckpt_receipt(table, TABLE, area, CKPT_RECEIPT_LENGTH, to, q, k), "receipt", to, area, 4);
}

static void show(void) {
    for (size_t p = 0; p < N; p++) {
        size_t section = 2 + p * (3 + CKPT_RECORD_WORDS * E), words = CKPT_RECORD_WORDS * ckpt_word(table, section);
        printf("process %u:", (unsigned)p);
        for (size_t i = 0; i < words; i++) {
            printf("%s%u", i % CKPT_RECORD_WORDS ? "," : " ", (unsigned)ckpt_word(table, section + 3 + i));
        }
        puts("");
    }
}

/* Processes 0 and 1 each receive the other's message before they send their own. */
static void invent(void) {
    must(ckpt_fresh(table, TABLE, N, E));
    for (uint32_t p = 0; p < 2; p++) {
        uint32_t words[] = {2, 0, 1, 4, 1 - p, 1, 0, 3, 1 - p, 1, 0}; /* count, number, sends, a receipt, a send */
        for (size_t i = 0; i < 11; i++) put(table + 4 * (2 + p * (3 + CKPT_RECORD_WORDS * E) + i), 4, words[i]);
    }
    save();
    puts("saved two receipts that wait for each other");
}

int main(int argc, char **argv) {
    bool shows = argc == 3 && !strcmp(argv[2], "--show"), invents = argc == 3 && !strcmp(argv[2], "--invent");
    if (argc != 2 && !shows && !invents) {
        fputs("usage: storage FILE [--show | --invent]\n", stderr);
        return 2;
    }
    path = argv[1];
    file = open(path, O_RDWR);
    if (file < 0 && errno == ENOENT && !shows) begin();
    if (file < 0) stop(strerror(errno));
    load();
    audit();
    keep();
    printf("%s: save %lu is whole, and a run of calls leaves its table\n", path, (unsigned long)saves);
    if (shows) {
        show();
    } else if (invents) {
        invent();
    } else {
        for (int left = CALLS; left > 0 && turn();) left--;
    }
    return 0;
}
