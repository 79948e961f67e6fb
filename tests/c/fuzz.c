/* The fuzzer's host: makes drawn calls on the engine until the time is over. tests/fuzz draws them and compares each with the
   reference engine; tests/fuzz.sh builds the two under AddressSanitizer and UndefinedBehaviorSanitizer.

   Every table and every area is lent in a block of its own, of exactly its length. The engine is not instrumented, so a byte that
   it touches outside a heap block is seen only where memcpy or memset touches it. Two of three cases therefore lend flush against
   closed pages, the one behind the block or the one in front of it, where every access ends the program with a report. */
#define _DEFAULT_SOURCE
#include <errno.h>
#include <inttypes.h>
#include <sanitizer/asan_interface.h>
#include <signal.h>
#include <stdbool.h>
#include <stdio.h>
#include <stdlib.h>
#include <string.h>
#include <sys/mman.h>
#include <time.h>
#include <unistd.h>

#include <ckpt.h>

/* tests/fuzz: runs a case, which makes its calls by fuzz_call; false where the engines disagree. */
bool fuzz_case(uint64_t seed, uint64_t number);
/* tests/fuzz: prints the tally; false where a call was never accepted, or never refused, no line lacked a saved state, the audit never
   said 0, or never 1, or a ground was never met. */
bool fuzz_tally(void);
/* Bytes that tests/fuzz wants lent: a table, and what the call is lent besides. */
struct bytes {
    uint8_t *start;
    size_t length;
};
uint32_t fuzz_call(uint32_t place, const uint32_t *numbers, const struct bytes *lent, size_t count);

/* Room for the longest block, which is the largest table, or the longest area, and what is added to it; a multiple of every usual
   page size. */
#define ROOM ((size_t)1 << 20)
/* A case takes some milliseconds. */
#define LONGEST_CASE 60
/* From so many seconds on, every call must have been accepted and refused, a line for want of a saved state, the audit have said 0 and
   1, and each ground been met. */
#define LONG_RUN 5

/* In the order of CALLS in tests/cases. */
enum call { FRESH, CHECKPOINT, SEND, RECEIPT, LINE, FAILED, GROUNDS, RESEND, AUDIT };
/* What a call is lent at most, in the order of its sort there: the third is positions or a scratch. */
enum lent { TABLE, AREA, FURTHER, LENT };
static const char *const lent_names[LENT] = {"table", "area", "positions or scratch"};
enum way { HEAP, PAGE_BEHIND, PAGE_IN_FRONT, WAYS };
static const char *const way_names[WAYS] = {"in a heap block", "with a closed page behind", "with a closed page in front"};

/* How blocks are lent in the running case: room lies between closed pages, null stands for a heap block of no bytes. */
struct lender {
    uint8_t *room;
    enum way way;
    bool null;
};

static struct lender lenders[LENT];
static uint64_t seed, number, calls;

/* No leak check: it needs rights that not every machine gives, and the engine allocates nothing. Little is kept of freed blocks:
   it is the lent ones that count, and keeping more takes most of the time. */
const char *__asan_default_options(void) {
    return "detect_leaks=0:quarantine_size_mb=1:malloc_context_size=4";
}

static void say_case(void) {
    fprintf(stderr, "fuzz: case %" PRIu64 ", CKPT_SEED=%" PRIu64, number, seed);
    for (int i = 0; i < LENT; i++) fprintf(stderr, ", %s %s", lent_names[i], way_names[lenders[i].way]);
    fprintf(stderr, "\n");
}

static void end_badly(const char *why) {
    fprintf(stderr, "fuzz: %s\n", why);
    say_case();
    _exit(1);
}

static void on_alarm(int signal_number) {
    (void)signal_number;
    end_badly("the case does not end");
}

static uint8_t *room_between_closed_pages(void) {
    uint8_t *pages = mmap(NULL, 3 * ROOM, PROT_NONE, MAP_PRIVATE | MAP_ANONYMOUS, -1, 0);
    if (pages == MAP_FAILED || mprotect(pages + ROOM, ROOM, PROT_READ | PROT_WRITE) != 0) end_badly("no pages");
    return pages + ROOM;
}

static uint8_t *block(const struct lender *lender, size_t length) {
    if (lender->way == HEAP && length == 0 && lender->null) return NULL;
    if (lender->way == HEAP) return malloc(length);
    if (length > ROOM) end_badly("a block is longer than its room");
    return lender->way == PAGE_BEHIND ? lender->room + ROOM - length : lender->room;
}

static struct bytes lend(const struct lender *lender, struct bytes bytes) {
    struct bytes lent = {block(lender, bytes.length), bytes.length};
    if (lent.length > 0) memcpy(lent.start, bytes.start, lent.length);
    return lent;
}

static void take_back(const struct lender *lender, struct bytes lent, struct bytes bytes) {
    if (lent.length > 0) memcpy(bytes.start, lent.start, lent.length);
    if (lender->way == HEAP) free(lent.start);
}

static uint32_t on_engine(enum call call, const uint32_t *x, const struct bytes *lent) {
#define OF(WHICH) lent[WHICH].start, lent[WHICH].length
    switch (call) {
    case FRESH: return ckpt_fresh(OF(TABLE), x[0], x[1]);
    case CHECKPOINT: return ckpt_checkpoint(OF(TABLE), OF(AREA), x[0]);
    case SEND: return ckpt_send(OF(TABLE), OF(AREA), x[0], x[1]);
    case RECEIPT: return ckpt_receipt(OF(TABLE), OF(AREA), x[0], x[1], x[2]);
    case LINE: return ckpt_line(OF(TABLE), OF(AREA), x[0]);
    case FAILED: return ckpt_failed(OF(TABLE), OF(AREA), x[0]);
    case GROUNDS: return ckpt_grounds(OF(TABLE), OF(AREA), x[0]);
    case RESEND: return ckpt_resend(OF(TABLE), OF(FURTHER), OF(AREA));
    case AUDIT: return ckpt_audit(OF(TABLE), OF(AREA), OF(FURTHER));
    }
    end_badly("no such call");
    return 0;
}

uint32_t fuzz_call(uint32_t place, const uint32_t *numbers, const struct bytes *bytes, size_t count) {
    struct bytes lent[LENT] = {{NULL, 0}};
    if (count > LENT) end_badly("too much is lent");
    for (size_t i = 0; i < count; i++) lent[i] = lend(&lenders[i], bytes[i]);
    uint32_t returned = on_engine((enum call)place, numbers, lent);
    for (size_t i = 0; i < count; i++) take_back(&lenders[i], lent[i], bytes[i]);
    calls++;
    return returned;
}

/* The case's number says how it lends: every way for one of the blocks meets every way for the others. */
static void choose_ways(void) {
    uint64_t left = number;
    for (int i = 0; i < LENT; i++, left /= WAYS) lenders[i].way = (enum way)(left % WAYS);
    for (int i = 0; i < LENT; i++) lenders[i].null = left % 2 == 1;
}

static uint64_t nanoseconds(clockid_t clock) {
    struct timespec time;
    clock_gettime(clock, &time);
    return (uint64_t)time.tv_sec * 1000000000u + (uint64_t)time.tv_nsec;
}

static bool read_number(const char *text, uint64_t *value) {
    char *end;
    errno = 0;
    *value = strtoull(text, &end, 10);
    return text[0] >= '0' && text[0] <= '9' && *end == '\0' && errno == 0;
}

static bool read_arguments(int argc, char **argv, uint64_t *seconds, uint64_t *first) {
    return argc >= 2 && argc <= 4 && read_number(argv[1], seconds) && *seconds > 0 && (argc < 3 || read_number(argv[2], &seed)) &&
           (argc < 4 || read_number(argv[3], first));
}

static void run(uint64_t seconds, uint64_t first) {
    uint64_t start = nanoseconds(CLOCK_MONOTONIC);
    for (number = first; (nanoseconds(CLOCK_MONOTONIC) - start) / 1000000000u < seconds; number++) {
        alarm(LONGEST_CASE);
        choose_ways();
        if (!fuzz_case(seed, number)) end_badly("the engine is not as the reference");
    }
}

/* fuzz SECONDS [SEED [CASE]]: the cases of this seed, or of one from the clock, from the first or from this one on. */
int main(int argc, char **argv) {
    uint64_t seconds = 0, first = 0;
    seed = nanoseconds(CLOCK_REALTIME);
    if (!read_arguments(argc, argv, &seconds, &first)) {
        fprintf(stderr, "usage: fuzz SECONDS [SEED [CASE]], in decimal numbers, at least one second\n");
        return 2;
    }
    for (int i = 0; i < LENT; i++) lenders[i].room = room_between_closed_pages();
    __sanitizer_set_death_callback(say_case);
    signal(SIGALRM, on_alarm);
    run(seconds, first);

    printf("fuzz: %" PRIu64 " calls in %" PRIu64 " cases, %" PRIu64 " seconds, CKPT_SEED=%" PRIu64 "\n", calls, number - first,
           seconds, seed);
    fflush(stdout);
    if (!fuzz_tally() && seconds >= LONG_RUN) {
        fprintf(stderr, "fuzz: a call was never accepted or never refused, or a verdict, a ground or number 15 never given\n");
        return 1;
    }
    return 0;
}
