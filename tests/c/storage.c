/* Power cuts, damage and inventions for examples/storage.c. That host is linked in, its main as storage_main, and the linker wraps
   what it reads, writes, syncs and renames.

   What is in storage after a cut is what was synced, and any part of what was written since. So a start of the host is cut at each
   of its writes, syncs and renamings, with each count of the bytes that aren't synced, in several shapes. The next start must come
   back with the table behind the last call that was told, or behind one call more.

   storage FOLDER [cuts | damage | inventions | few]    all parts with a file in this folder, one part, or a few of everything

   The last line says what was tried, and the status is 0 where nothing was found amiss. */
#define _POSIX_C_SOURCE 200809L
#include <ctype.h>
#include <errno.h>
#include <fcntl.h>
#include <stdio.h>
#include <stdlib.h>
#include <string.h>
#include <sys/stat.h>
#include <sys/wait.h>
#include <unistd.h>

#include "table.h"

/* What the host's file has, written down a second time. */
enum { N = 3, E = 8, TABLE = CKPT_TABLE_LENGTH(N, E), SUMMED = 8 + TABLE, SLOT = SUMMED + 4, BLOCK = 4096, LENGTH = 2 * BLOCK };

int storage_main(int argc, char **argv);
ssize_t __real_pwrite(int file, const void *bytes, size_t length, off_t at);
ssize_t __real_pread(int file, void *bytes, size_t length, off_t at);
int __real_rename(const char *old, const char *new);

/* ---- the host's process */

/* Which of the unsynced bytes are in storage: the first, the last, all but some in the middle, pieces here and there, or the first
   with the rest of their blocks erased, as flash erases a block before it is written. */
enum shape { FRONT, BACK, HOLE, SCATTERED, ERASED, SHAPES };

/* What happens at which event, counted from 0. A cut comes behind it; where it fails, a part was done. */
struct plan {
    int event, fails;
    enum shape shape;
    int bytes;
    off_t unreadable; /* the place of a slot, or -1 */
};
enum { NEVER = -1 };
static const struct plan uncut = {NEVER, 0, FRONT, 0, -1};
static struct plan plan;

/* How a start ends that was cut; that has no such event, or fewer unsynced bytes there; that went on after a failure. */
enum { CUT = 90, PAST, WENT_ON };

static char path[4000], unnamed[4000]; /* the file, and what it is called before it is whole */
static int events, failed, host_file, waiting, unsynced_name;
static struct { off_t at; uint8_t old, new; } unsynced[4 * LENGTH];

static int kept(int i) {
    switch (plan.shape) {
    case BACK: return i >= waiting - plan.bytes;
    case HOLE: return i < plan.bytes || i >= plan.bytes + waiting / 3;
    case SCATTERED: return (i / 16 + 1) * (plan.bytes + 7) % 5 < 2;
    default: return i < plan.bytes;
    }
}

/* Leaves in the file what the plan says of the unsynced bytes. A name that isn't synced is lost in one of the shapes. */
static void tear(void) {
    static uint8_t bytes[2 * LENGTH];
    ssize_t length = __real_pread(host_file, bytes, sizeof bytes, 0);
    for (int i = waiting; i-- > 0;) bytes[unsynced[i].at] = unsynced[i].old;
    for (int i = 0; i < waiting && plan.shape == ERASED; i++) memset(bytes + unsynced[i].at / BLOCK * BLOCK, 0xff, BLOCK);
    for (int i = 0; i < waiting; i++) {
        if (kept(i)) bytes[unsynced[i].at] = unsynced[i].new;
    }
    if (waiting) __real_pwrite(host_file, bytes, (size_t)length, 0);
    if (unsynced_name && plan.shape == BACK) __real_rename(path, unnamed);
}

/* Whether this event fails; a cut ends the process. */
static int event(void) {
    if (events++ != plan.event) return 0;
    if (plan.bytes > waiting) _exit(PAST);
    tear();
    if (plan.fails) {
        errno = EIO;
        return failed = 1;
    }
    fflush(stdout);
    _exit(CUT);
}

ssize_t __wrap_pwrite(int file, const void *bytes, size_t length, off_t at) {
    static uint8_t old[LENGTH];
    __real_pread(file, old, length, at);
    for (size_t i = 0; i < length; i++, waiting++) {
        unsynced[waiting].at = at + (off_t)i;
        unsynced[waiting].old = old[i];
        unsynced[waiting].new = ((const uint8_t *)bytes)[i];
    }
    host_file = file;
    ssize_t written = __real_pwrite(file, bytes, length, at);
    if (!event()) return written;
    return plan.shape == FRONT && plan.bytes < (int)length ? plan.bytes : -1; /* as where storage is full, or broken */
}

/* Where nothing waits to be synced it is no event. */
int __wrap_fsync(int file) {
    struct stat about;
    int *synced = fstat(file, &about) == 0 && S_ISDIR(about.st_mode) ? &unsynced_name : &waiting;
    if (*synced == 0) return 0;
    if (plan.fails && event()) return -1;
    *synced = 0;
    return plan.fails ? 0 : event();
}

int __wrap_rename(const char *old, const char *new) {
    if (plan.fails && event()) return -1;
    int renamed = __real_rename(old, new);
    unsynced_name = 1;
    return plan.fails ? renamed : event();
}

ssize_t __wrap_pread(int file, void *bytes, size_t length, off_t at) {
    if (at != plan.unreadable) return __real_pread(file, bytes, length, at);
    errno = EIO;
    return -1;
}

/* ---- starts of the host */

static char text[1 << 14]; /* what the last one printed */
static unsigned long starts, cuts, failures, flips, invented;

static void wrong(const char *what) {
    printf("storage: %s; event %d%s, shape %d, %d bytes; the last start printed:\n%s", what, plan.event,
           plan.fails ? " fails" : "", (int)plan.shape, plan.bytes, text);
    exit(1);
}

/* Starts the host with this option or a null pointer, and returns its status. */
static int start(const char *option) {
    int ends[2], status;
    size_t length = 0;
    ssize_t more;
    char *words[] = {"storage", path, (char *)option, NULL};
    pid_t child = -1;
    if (pipe(ends) || (child = fork()) < 0) wrong("no process can be started");
    if (child == 0) {
        dup2(ends[1], 1);
        dup2(ends[1], 2);
        int ended = storage_main(option ? 3 : 2, words);
        exit(failed ? WENT_ON : ended);
    }
    close(ends[1]);
    while ((more = read(ends[0], text + length, sizeof text - 1 - length)) > 0) length += (size_t)more;
    text[length] = 0;
    close(ends[0]);
    if (waitpid(child, &status, 0) != child || !WIFEXITED(status)) wrong("a start ended by a signal");
    starts++;
    return WEXITSTATUS(status);
}

/* Has the table shown, without a cut. */
static int shown(void) {
    int planned = plan.event;
    plan.event = NEVER;
    int status = start("--show");
    plan.event = planned;
    return status;
}

/* How many calls' answers were printed: a colon stands before their words. */
static int told(void) {
    int calls = 0;
    for (const char *c = text; (c = strchr(c, ':')); c++) calls += c[1] == ' ' && isdigit((unsigned char)c[2]);
    return calls;
}

static uint8_t image[LENGTH + 1]; /* what is put into the file */

static void put_file(size_t length) {
    int file = open(path, O_WRONLY | O_CREAT, 0666);
    if (file < 0 || write(file, image, length) != (ssize_t)length || ftruncate(file, (off_t)length) || close(file)) {
        wrong("the file can't be written");
    }
}

static size_t get_file(uint8_t *bytes) {
    int file = open(path, O_RDONLY);
    ssize_t length = read(file, bytes, LENGTH + 1);
    if (length < 0 || close(file)) wrong("the file can't be read");
    return (size_t)length;
}

/* ---- cuts */

enum { FEWEST = 15, MOST = 40, NO_FILE = -1 };

/* What the host's calls make one after the other, as --show prints it, with the file; table 0 is the fresh one. */
static struct {
    char text[2000];
    uint8_t image[LENGTH + 1];
} made[MOST];
static int last;

static void begin_at(int base) {
    if (base == NO_FILE) {
        unlink(path);
        return;
    }
    memcpy(image, made[base].image, LENGTH);
    put_file(LENGTH);
}

static size_t slot_of(int calls) { return (size_t)(calls + 1) % 2 * BLOCK; } /* the fresh table is save 1 */

static const char *table_in(const char *printed) { return strchr(printed, '\n'); }

/* Follows the host from no file until its table is full, a call a start. */
static void follow(void) {
    begin_at(NO_FILE);
    plan = (struct plan){3, 0, FRONT, 0, -1};
    if (start(NULL) != CUT || told() != 0) wrong("a first start has fewer than four events before it tells a call");
    for (last = 0;; last++) {
        if (shown() != 0 || strlen(text) >= sizeof made[0].text || last == MOST) wrong("a table that was saved isn't shown");
        if (last > 0 && !strcmp(table_in(text), table_in(made[last - 1].text))) wrong("a table that was saved isn't there");
        strcpy(made[last].text, text);
        if (get_file(made[last].image) != LENGTH) wrong("the file has another length");
        plan = (struct plan){0, 0, FRONT, SLOT, -1};
        int status = start(NULL);
        if (status == 0 && last > FEWEST) return;
        if (status != CUT || told() != 0) wrong("a call isn't saved in one write before it is told");
    }
}

/* A start comes back with the table behind these calls or behind one more: which. Where none was made there may be no file. */
static int back_at(int calls) {
    int status = shown();
    if (status == 1 && calls <= 0 && access(path, F_OK) != 0) return NO_FILE;
    for (int i = calls < 0 ? 0 : calls; status == 0 && i <= calls + 1 && i <= last; i++) {
        if (!strcmp(text, made[i].text)) return i;
    }
    wrong("after a cut it came back with another table");
    return 0;
}

/* Cuts a start from this table, or lets it fail, and every eighth time the next start too. Returns how the first one ended. */
static int cut_at(int base, struct plan chosen) {
    begin_at(base);
    plan = chosen;
    int status = start(NULL);
    if (status == PAST || status == 0) return status;
    if (status != (chosen.fails ? 1 : CUT)) wrong("a start ended with another status");
    int back = back_at((base == NO_FILE ? 0 : base) + told());
    cuts += !chosen.fails;
    failures += (unsigned long)chosen.fails;
    if (chosen.bytes % 8) return status;

    plan = (struct plan){0, 0, (enum shape)((chosen.bytes / 8 + chosen.event) % SHAPES), (chosen.bytes * 7 + 1) % SLOT, -1};
    if (back < last && start(NULL) != CUT) wrong("a start after a cut doesn't go on");
    back_at(back);
    return status;
}

/* Cuts of a start from this table at all its events and in all shapes, and failures. The front shape has every `step`th count of
   bytes, the others every `leap`th. */
static void cut_everywhere(int base, int step, int leap) {
    int status = CUT;
    for (int fails = 0; fails <= 1; fails++) {
        for (int i = 0; i == 0 || status != 0; i++) {
            for (int shape = 0; shape == 0 || (shape < SHAPES && status != 0); shape++) {
                int more = fails ? 55 : shape == FRONT ? step : leap;
                for (int bytes = 0; bytes == 0 || (status != PAST && status != 0); bytes += more) {
                    status = cut_at(base, (struct plan){i, fails, (enum shape)shape, bytes, -1});
                }
            }
        }
    }
}

/* Cuts of a start behind one that was killed before it had synced its last write, or the name of its first table: what the later
   one reads may not be in storage yet. */
static void cut_after_kill(int base) {
    int status = CUT;
    size_t at = slot_of(base);
    for (int i = 0; i == 0 || (i < 6 && status != 0); i++) {
        for (int shape = 0; shape < SHAPES; shape++) {
            for (int bytes = 0; bytes == 0 || (status != PAST && status != 0); bytes += 55) {
                begin_at(base);
                plan = (struct plan){i, 0, (enum shape)shape, bytes, -1};
                unsynced_name = base == 0;
                for (waiting = 0; base > 0 && waiting < SLOT; waiting++, at++) {
                    unsynced[waiting].at = (off_t)at;
                    unsynced[waiting].old = made[base - 1].image[at];
                    unsynced[waiting].new = made[base].image[at];
                }
                at -= (size_t)waiting;
                status = start(NULL);
                unsynced_name = waiting = 0;
                if (status == CUT) back_at(base + told());
                cuts += status == CUT;
            }
        }
    }
}

/* ---- damage */

static void comes_back_with(int calls, const char *what) {
    if (shown() != 0 || strcmp(text, made[calls].text)) wrong(what);
}

/* Every start refuses the file with this message and leaves it as it is. */
static void refused(const char *message, const char *what) {
    static uint8_t before[LENGTH + 1], after[LENGTH + 1];
    size_t length = get_file(before);
    for (int option = 0; option < 2; option++) {
        if ((option ? shown() : start(NULL)) != 1 || !strstr(text, message) || told() != 0) wrong(what);
    }
    if (get_file(after) != length || memcmp(before, after, length)) wrong("a file that was refused was changed");
}

/* Every `step`th bit of the slots is flipped, and of the bytes behind them some. */
static void flip(int base, int step) {
    for (int bit = 0; bit < 8 * LENGTH; bit += step) {
        size_t byte = (size_t)bit / 8;
        if (byte % BLOCK >= SLOT && bit % 256 >= step) continue;
        memcpy(image, made[base].image, LENGTH);
        image[byte] ^= (uint8_t)(1 << bit % 8);
        put_file(LENGTH);
        comes_back_with(base - (byte - slot_of(base) < SLOT), "after damage to one slot it came back with another table");
        flips++;
    }
}

/* Both slots damaged, a file of another length, a slot that can't be read. */
static void damage(int base) {
    static const size_t lengths[] = {0, 1, SLOT, BLOCK, BLOCK + SLOT, LENGTH - 1, LENGTH + 1};
    for (size_t byte = 0; byte < SLOT; byte += 7) {
        memcpy(image, made[base].image, LENGTH);
        image[byte] ^= 0x10;
        image[BLOCK + SLOT - 1 - byte] ^= 0x10;
        put_file(LENGTH);
        refused("refused: neither slot is whole", "a file with both slots damaged isn't refused");
    }
    for (size_t i = 0; i < sizeof lengths / sizeof lengths[0]; i++) {
        memcpy(image, made[base].image, LENGTH);
        put_file(lengths[i]);
        refused("refused: it hasn't the length", "a file of another length isn't refused");
    }
    begin_at(base);
    for (size_t slot = 0; slot < LENGTH; slot += BLOCK) {
        plan.unreadable = (off_t)slot;
        comes_back_with(base - (slot == slot_of(base)), "without a slot that can't be read it came back with another table");
    }
    plan = uncut;
}

/* ---- inventions */

/* CRC-32 as a division: the bits with the lowest first, of which the first 32 are turned over, as is what remains. */
static uint32_t crc(const uint8_t *bytes) {
    uint32_t rest = 0, mirrored = 0;
    for (size_t i = 0; i < 8 * SUMMED + 32; i++) {
        uint32_t bit = i < 8 * SUMMED ? bytes[i / 8] >> i % 8 & 1 : 0, divides = rest >> 31;
        rest = (rest << 1 | (bit ^ (i < 32))) ^ (divides ? 0x04c11db7 : 0);
    }
    for (int i = 0; i < 32; i++) mirrored |= (~rest >> i & 1) << (31 - i);
    return mirrored;
}

/* A whole slot of the image, with this number and table. */
static void put_slot(size_t at, uint64_t number, const uint8_t *table) {
    put_word(image + at, 0, (uint32_t)(number >> 32));
    put_word(image + at, 1, (uint32_t)number);
    memcpy(image + at + 8, table, TABLE);
    put_word(image + at, SUMMED / 4, crc(image + at));
}

/* The table with these records, written as --show prints them, a '/' between processes. Its headings fit them. */
static const uint8_t *table_of(const char *records) {
    static uint8_t table[TABLE];
    size_t p = 0, r = 0;
    memset(table, 0, TABLE);
    put_word(table, 0, N);
    put_word(table, 1, E);
    for (const char *c = records; *c;) {
        if (*c == '/') p++, r = 0;
        if (!isdigit((unsigned char)*c)) {
            c++;
            continue;
        }
        size_t section = section_at(E, p), record = record_at(E, p, r++);
        for (size_t word = record; word < record + RECORD_WORDS; word++) {
            put_word(table, word, (uint32_t)strtoul(c, (char **)&c, 10));
            if (*c == ',') c++;
        }
        uint32_t kind = ckpt_word(table, record);
        put_word(table, section + HEADING_COUNT, (uint32_t)r);
        if (kind < KIND_SEND) put_word(table, section + HEADING_NUMBER, ckpt_word(table, record + RECORD_A));
        if (kind == KIND_SEND) put_word(table, section + HEADING_SENDS, ckpt_word(table, section + HEADING_SENDS) + 1);
    }
    return table;
}

static const char made_records[] = "1,1,0,0 3,1,1,1 / 2,1,0,0 4,0,1,1 /";
static const char of_no_run[] = "refused: no run of calls", not_well_laid[] = "refused: its words are not such";
static const char no_dimensions[] = "refused: its length or dimensions are not such";

/* Puts a table with a right sum into the newer slot; the older one has a table that was made. */
static void put_newer(const uint8_t *table) {
    memcpy(image, made[7].image, LENGTH);
    put_slot(slot_of(8), 9, table);
    put_file(LENGTH);
}

static void invention(const char *records, const char *message) {
    put_newer(table_of(records));
    refused(message, records);
    invented++;
}

/* The records above are made; with this word they are not. */
static void changed(size_t i, uint32_t word, const char *message) {
    uint8_t table[TABLE];
    memcpy(table, table_of(made_records), TABLE);
    put_word(table, i, word);
    put_newer(table);
    refused(message, "a table with a word changed isn't refused");
    invented++;
}

static void inventions(void) {
    put_newer(table_of(made_records));
    if (shown() != 0 || strcmp(table_in(text), "\nprocess 0: 1,1,0,0 3,1,1,1\nprocess 1: 2,1,0,0 4,0,1,1\nprocess 2:\n")) {
        wrong("a table that calls make isn't believed");
    }
    invention("4,1,1,0 3,1,1,0 / 4,0,1,0 3,0,1,0 /", of_no_run);                 /* two receipts that wait for each other */
    invention("4,2,1,0 3,1,1,0 / 4,0,1,0 3,2,1,0 / 4,1,1,0 3,0,1,0", of_no_run); /* three */
    invention("3,1,1,0 / 4,0,1,0 4,0,1,0 /", of_no_run);                         /* a receipt twice */
    invention("1,2,0,0 / /", of_no_run);                                         /* a number skipped */
    invention("1,1,0,0 1,1,0,0 / /", of_no_run);                                 /* and one twice */
    invention("4,1,1,0 / /", of_no_run);                                         /* a receipt without its send */
    invention("3,2,1,0 / 4,0,1,0 /", of_no_run);                                 /* of a message to another */
    invention("3,1,1,0 2,1,0,0 / /", of_no_run);                                 /* forced by no receipt */
    invention("3,1,1,0 / 2,1,0,0 4,0,1,0 /", of_no_run);                         /* by one that carried less */
    invention("1,1,0,0 3,1,1,1 / 1,1,0,0 2,1,0,0 4,0,1,1 /", of_no_run);         /* by one that carried no more */
    invention("1,1,0,0 3,1,1,1 / 4,0,1,0 /", of_no_run);                         /* not forced, by a word that is too low */
    invention("5,1,1,0 / /", not_well_laid);                                     /* no kind */
    invention("3,1,2,0 / /", not_well_laid);                                     /* not the first send */
    invention("3,1,1,0 / 4,0,1,1 /", not_well_laid);                             /* a word above the number */
    changed(section_at(E, 0) + HEADING_COUNT, E + 1, not_well_laid);
    changed(section_at(E, N) - 1, 1, not_well_laid);
    changed(0, 0, no_dimensions);
    changed(0, N + 1, no_dimensions);
    changed(1, E - 1, no_dimensions);

    uint8_t table[TABLE] = {0, 0, 0, 7, 0, 0, 0, 3}; /* as many bytes, for 7 processes with 3 records each */
    put_newer(table);
    refused("refused: its dimensions are not this host's", "a table of other dimensions isn't refused");
}

/* A save's number has 64 bits, and its slot. */
static void numbers(void) {
    uint8_t table[TABLE];
    memcpy(table, made[8].image + slot_of(8) + 8, TABLE);
    put_slot(BLOCK, 0xffffffff, table_of(made_records));
    put_slot(0, 0x100000000, table);
    put_file(LENGTH);
    if (shown() != 0 || strcmp(table_in(text), table_in(made[8].text))) wrong("save 2^32 isn't newer than the one before it");
    if (start(NULL) != 0 || shown() != 0 || !strstr(text, "save 4294967301 is")) wrong("saves aren't counted on from 2^32");
    put_slot(BLOCK, 9, table);
    put_slot(0, 11, table);
    put_file(LENGTH);
    if (shown() != 0 || !strstr(text, "save 9 is")) wrong("a slot in the other's place is taken");
}

int main(int argc, char **argv) {
    if (argc < 2 || argc > 3 || strlen(argv[1]) > sizeof path - 20) return 2;
    const char *part = argc == 3 ? argv[2] : "";
    int few = !strcmp(part, "few"), all = few || !*part;
    snprintf(path, sizeof path, "%s/table", argv[1]);
    snprintf(unnamed, sizeof unnamed, "%s/table.new", argv[1]);
    follow();
    if (all || !strcmp(part, "cuts")) {
        cut_everywhere(NO_FILE, few ? 55 : 1, few ? 220 : 3);
        cut_everywhere(5, few ? 55 : 1, few ? 220 : 7);
        cut_everywhere(last - 1, few ? 55 : 1, few ? 220 : 1);
        cut_after_kill(0);
        cut_after_kill(7);
    }
    plan = uncut;
    if (all || !strcmp(part, "damage")) {
        for (int base = 7; base <= 8; base++) {
            damage(base);
            flip(base, few ? 105 : 1);
        }
    }
    if (all || !strcmp(part, "inventions")) {
        inventions();
        numbers();
    }
    printf("storage: %lu cuts, %lu failures, %lu flips, %lu inventions, in %lu starts\n", cuts, failures, flips, invented, starts);
    return 0;
}
