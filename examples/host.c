/* A control program on the checkpoint table.

   Collectors read the meters of flats and report new pulses to the tariff process, which passes them on to the ledger that bills
   the flat. Messages overtake each other. Each process saves its state now and then, and when the table says so. When processes
   fail, the failure line names the states to go on from: the host reloads them, asks which messages were in transit there and sends
   these again. After every restart it lets all pulses reach the ledgers and compares these with the meters' own registers.

   host [SEED]                   a thousand random restarts; the last line is 'ledgers equal registers', and the status is 0
   host --explain [SEED]         the same, and at each restart a line for each process that goes back, for field service: why it does
   host --ignore-lines [SEED]    each process reloads its own last save instead: flats are billed for pulses twice, and the host says so
                                 and ends with status 1; with --explain too, the lines say what the processes would do */
#include <stdbool.h>
#include <stdio.h>
#include <stdlib.h>
#include <string.h>

#include <ckpt.h>

enum { RESTARTS = 1000, FLATS = 6, COLLECTORS = 3, TARIFF = COLLECTORS, LEDGERS = 2, N = COLLECTORS + 1 + LEDGERS, E = 40 };

/* What a process remembers and saves: pulses of each flat. A collector has reported them, the tariff process holds them until it
   passes them on, a ledger has billed them. */
struct state {
    uint32_t pulses[FLATS];
};

struct message {
    uint32_t from, to, number; /* the table knows it by its sender and send number */
    uint32_t flat, pulses;
    bool received;
};

static uint32_t meter[FLATS]; /* the registers: meters never fail */
static struct state running[N];

/* What the host keeps on disk, beside the meters: the table, and for it every state saved and every message. */
static uint8_t table[CKPT_TABLE_LENGTH(N, E)];
static struct state saved[N][E + 1]; /* by the position at which it was saved, 0 for the state that the table began from */
static uint32_t position[N];         /* how many records a process has: the place of the last one */
static uint32_t last_save[N];        /* the position of its last save */
static struct message sent[N][E + 1]; /* by sender and send number */
static uint32_t sends[N];
static uint32_t owed[N]; /* how many a process sent again when the table began: its first records are these sends */

static bool ignore_lines, explaining;
static struct { unsigned long restarts, saves, forced, received, overtaking, again, back, full, farthest; } seen;

/* A number below the bound; the same seed gives the same run everywhere. */
static uint64_t seed = 1;
static uint32_t below(uint32_t bound) {
    seed = seed * 6364136223846793005u + 1442695040888963407u;
    return (uint32_t)(seed >> 33) % bound;
}

static uint32_t collector_of(uint32_t flat) { return flat % COLLECTORS; }
static uint32_t ledger_of(uint32_t flat) { return TARIFF + 1 + flat % LEDGERS; }

static void must(uint32_t number) {
    if (number == CKPT_OK) return;
    fprintf(stderr, "host: a call was stopped by check %u\n", (unsigned)number);
    exit(2);
}

static void save(uint32_t p) {
    saved[p][position[p]] = running[p];
    last_save[p] = position[p];
}

/* A fresh table that begins from the running states. */
static void begin(void) {
    must(ckpt_fresh(table, sizeof table, N, E));
    for (uint32_t p = 0; p < N; p++) {
        position[p] = sends[p] = 0;
        save(p);
    }
}

static void put_word(uint8_t *area, size_t i, uint32_t word) {
    for (size_t byte = 4 * i + 4; byte-- > 4 * i; word >>= 8) area[byte] = (uint8_t)word;
}

static bool post(uint32_t from, uint32_t to, uint32_t flat, uint32_t pulses);

/* A process that fails loses what it remembers. */
static void fail(uint32_t failed) {
    for (uint32_t p = 0; p < N; p++) {
        if (failed >> p & 1) memset(&running[p], 0, sizeof running[p]);
    }
}

/* The state of a process at this position, in words. */
static const char *state_at(uint32_t at) {
    static char words[24];
    if (at == 0) return "its first state"; /* that which the table began from */
    snprintf(words, sizeof words, "its save at %u", (unsigned)at);
    return words;
}

/* Says why each process goes back that does, at the failure line of the mask. A ground names the receipt that took a process back by
   its place, and there the table has the message. */
static void explain(uint32_t failed, const uint8_t *line) {
    const char *reloads = ignore_lines ? "would reload" : "reloads", *goes = ignore_lines ? "would go" : "goes";
    uint8_t area[CKPT_GROUNDS_LENGTH(N)];
    must(ckpt_grounds(table, sizeof table, area, sizeof area, failed));
    for (uint32_t p = 0; p < N; p++) {
        uint32_t ground = ckpt_word(area, 2 * p), place = ckpt_word(area, 2 * p + 1);
        const char *state = state_at(ckpt_word(line, p));
        if (ground == CKPT_GROUND_STAYS) continue;
        printf("restart %lu: process %u ", seen.restarts, (unsigned)p);
        if (ground == CKPT_GROUND_FAILED) {
            printf("failed: %s %s\n", reloads, state);
            continue;
        }
        size_t receipt = CKPT_RECORD_AT(E, p, place);
        printf("%s%s back to %s: its receipt at %u is of message %u from process %u, which isn't sent any more\n",
               failed >> p & 1 ? "failed and " : "", goes, state, (unsigned)place, (unsigned)ckpt_word(table, receipt + 2),
               (unsigned)ckpt_word(table, receipt + 1));
    }
}

/* Goes on from the failure line of the mask: with its states, on a fresh table, and with what was in transit sent again. The
   answer's mask alone tells which processes are reloaded: those that failed, at their last save too, and those below their count. The
   line of mask 0 has all running states, so nobody goes back.

   A process may go back to the state that the table began from. Its position is 0, before the sends of what was sent again, and yet
   this state had sent these messages already: it owes them still. The engine can't know that and would take them for unsent. So it
   is asked with the position right behind these sends, which has no other record before it. */
static void restart(uint32_t failed) {
    static uint8_t list[CKPT_RESEND_MOST(N, E)];
    static struct message again[N * E];
    uint8_t area[CKPT_FAILED_LENGTH(N)], cut[CKPT_LINE_LENGTH(N)];
    bool own = failed && ignore_lines;

    must(ckpt_failed(table, sizeof table, area, sizeof area, failed));
    uint32_t back = ckpt_word(area, N);
    seen.back += ckpt_word(area, N + 1);
    seen.restarts += failed != 0;
    if (explaining && failed) explain(failed, area);
    for (uint32_t p = 0; p < N; p++) {
        uint32_t at = own ? last_save[p] : ckpt_word(area, p);
        if (own || back >> p & 1) running[p] = saved[p][at];
        put_word(cut, p, at < owed[p] ? owed[p] : at);
    }
    must(ckpt_resend(table, sizeof table, cut, sizeof cut, list, sizeof list));
    size_t count = ckpt_word(list, 0);
    for (size_t i = 0; i < count; i++) again[i] = sent[ckpt_word(list, 3 * i + 1)][ckpt_word(list, 3 * i + 2)];
    begin();
    /* There is room for them: each sender had them in its last table. */
    for (const struct message *m = again; m < again + count; m++) post(m->from, m->to, m->flat, m->pulses);
    memcpy(owed, sends, sizeof owed);
    seen.again += count;
}

/* Whether a call was accepted. If its process has no records left, the host goes on with a fresh table, and the call can be tried
   again. */
static bool accepted(uint32_t number) {
    if (number != CKPT_NO_RECORDS_LEFT) {
        must(number);
        return true;
    }
    seen.full++;
    restart(0);
    return false;
}

static void checkpoint(uint32_t p) {
    uint8_t area[CKPT_CHECKPOINT_LENGTH];
    if (!accepted(ckpt_checkpoint(table, sizeof table, area, sizeof area, p))) return;
    position[p]++;
    save(p);
    seen.saves++;
}

static bool post(uint32_t from, uint32_t to, uint32_t flat, uint32_t pulses) {
    uint8_t area[CKPT_SEND_LENGTH];
    if (!accepted(ckpt_send(table, sizeof table, area, sizeof area, from, to))) return false;
    position[from]++;
    sends[from] = ckpt_word(area, 0);
    sent[from][sends[from]] = (struct message){from, to, sends[from], flat, pulses, false};
    return true;
}

/* How far a message travelled: the distance between the place of its send and that of its receipt. */
static void travelled(uint32_t from, uint32_t to) {
    uint32_t places = from < to ? to - from : from - to;
    if (places > seen.farthest) seen.farthest = places;
}

static void receive(struct message *m) {
    uint8_t area[CKPT_RECEIPT_LENGTH];
    if (!accepted(ckpt_receipt(table, sizeof table, area, sizeof area, m->to, m->from, m->number))) return;
    uint32_t sent_at = ckpt_word(area, 2), received_at = ckpt_word(area, 3);
    if (ckpt_word(area, 1)) { /* forced: the state is saved before the message is taken */
        position[m->to] = received_at - 1;
        save(m->to);
        seen.forced++;
    }
    position[m->to] = received_at;
    travelled(sent_at, received_at);
    m->received = true;
    running[m->to].pulses[m->flat] += m->pulses;
    seen.received++;
    for (const struct message *o = sent[m->from] + 1; o < m; o++) {
        if (!o->received && o->to == m->to) {
            seen.overtaking++;
            break;
        }
    }
}

/* Any message in transit, so that some overtake others; a null pointer if there is none. */
static struct message *in_transit(void) {
    struct message *found = NULL;
    uint32_t waiting = 0;
    for (uint32_t p = 0; p < N; p++) {
        for (struct message *m = sent[p] + 1; m <= sent[p] + sends[p]; m++) {
            if (!m->received && below(++waiting) == 0) found = m;
        }
    }
    return found;
}

static void report(uint32_t flat) {
    uint32_t *reported = &running[collector_of(flat)].pulses[flat];
    uint32_t now = meter[flat];
    if (now != *reported && post(collector_of(flat), TARIFF, flat, now - *reported)) *reported = now;
}

static void pass_on(uint32_t flat) {
    uint32_t *held = &running[TARIFF].pulses[flat];
    if (*held && post(TARIFF, ledger_of(flat), flat, *held)) *held = 0;
}

/* A meter counts, and one process does something. */
static void turn(void) {
    struct message *m;
    uint32_t flat = below(FLATS);
    meter[flat] += below(9);
    switch (below(8)) {
    case 0: checkpoint(below(N)); break;
    case 1: case 2: report(below(FLATS)); break;
    case 3: case 4: pass_on(below(FLATS)); break;
    default: if ((m = in_transit())) receive(m);
    }
}

static bool all_passed_on(void) {
    for (uint32_t flat = 0; flat < FLATS; flat++) {
        if (running[collector_of(flat)].pulses[flat] != meter[flat] || running[TARIFF].pulses[flat]) return false;
    }
    return true;
}

/* Lets every pulse reach its ledger, while the meters stand. */
static void settle(void) {
    struct message *m;
    while ((m = in_transit()) || !all_passed_on()) {
        if (m) {
            receive(m);
            continue;
        }
        for (uint32_t flat = 0; flat < FLATS; flat++) {
            report(flat);
            pass_on(flat);
        }
    }
}

/* The customer's check. */
static bool ledgers_equal_registers(void) {
    bool equal = true;
    for (uint32_t flat = 0; flat < FLATS; flat++) {
        uint32_t billed = running[ledger_of(flat)].pulses[flat];
        if (billed == meter[flat]) continue;
        printf("flat %u: its meter counted %u pulses, its ledger has %u\n", (unsigned)flat, (unsigned)meter[flat],
               (unsigned)billed);
        equal = false;
    }
    return equal;
}

int main(int argc, char **argv) {
    for (int i = 1; i < argc; i++) {
        char *end;
        if (!strcmp(argv[i], "--ignore-lines")) {
            ignore_lines = true;
            continue;
        }
        if (!strcmp(argv[i], "--explain")) {
            explaining = true;
            continue;
        }
        seed = strtoull(argv[i], &end, 10);
        if (end == argv[i] || *end) {
            fputs("usage: host [--ignore-lines] [--explain] [SEED]\n", stderr);
            return 2;
        }
    }
    begin();
    for (int restarts = 1; restarts <= RESTARTS; restarts++) {
        for (uint32_t turns = below(150); turns > 0; turns--) turn();
        uint32_t failed = 1u << below(N) | 1u << below(N); /* one process, or two */
        fail(failed);
        restart(failed);
        settle();
        if (!ledgers_equal_registers()) {
            printf("ledgers differ from registers after restart %d\n", restarts);
            return 1;
        }
        if (restarts % 100 == 0) {
            printf("%4d restarts: saves %lu and forced %lu, received %lu, overtaking %lu, sent again %lu, went back %lu, "
                   "tables full %lu, travelled %lu places at most\n",
                   restarts, seen.saves, seen.forced, seen.received, seen.overtaking, seen.again, seen.back, seen.full,
                   seen.farthest);
        }
    }
    puts("ledgers equal registers");
    return 0;
}
