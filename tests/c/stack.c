/* Prints how many bytes of stack each call takes, its arguments and return address included, rounded up to 64. A call runs on a
   painted stack of its own, and what it paints over is counted. The frames don't depend on what is in a table but for the two sizes
   of notes, so a small and a large table show the most. Status 1 where a call takes more than ckpt.h says. */
#include <stdio.h>
#include <string.h>

#include <ckpt.h>

enum { PAINT = 0xA5, SMALL_N = 3, SMALL_E = 6 };

static uint8_t table[CKPT_TABLE_LENGTH(CKPT_MAX_PROCESSES, CKPT_MAX_RECORDS)];
static uint8_t area[CKPT_GROUNDS_LENGTH(CKPT_MAX_PROCESSES)];
static uint8_t scratch[sizeof table];
/* Process 0 at its send, the others at 0. */
static const uint8_t positions[4 * CKPT_MAX_PROCESSES] = {0, 0, 0, 2};
static uint32_t n, e, returned;
static uint8_t stack[1 << 16] __attribute__((aligned(16)));

#define TABLE table, CKPT_TABLE_LENGTH(n, e)

static void fresh(void) { returned = ckpt_fresh(TABLE, n, e); }
static void checkpoint(void) { returned = ckpt_checkpoint(TABLE, area, CKPT_CHECKPOINT_LENGTH, 0); }
static void send(void) { returned = ckpt_send(TABLE, area, CKPT_SEND_LENGTH, 0, 1); }
static void receipt(void) { returned = ckpt_receipt(TABLE, area, CKPT_RECEIPT_LENGTH, 1, 0, 1); }
static void line(void) { returned = ckpt_line(TABLE, area, CKPT_LINE_LENGTH(n), 1); }
static void refused_line(void) { returned = ckpt_line(TABLE, area, CKPT_LINE_LENGTH(n), 2); }
static void failed(void) { returned = ckpt_failed(TABLE, area, CKPT_FAILED_LENGTH(n), 1); }
static void grounds(void) { returned = ckpt_grounds(TABLE, area, CKPT_GROUNDS_LENGTH(n), 1); }
static void resend(void) { returned = ckpt_resend(TABLE, positions, 4 * n, area, CKPT_RESEND_LENGTH(1)); }
static void audit(void) { returned = ckpt_audit(TABLE, area, CKPT_AUDIT_LENGTH, scratch, CKPT_SCRATCH_LENGTH(n, e)); }

/* The calls in an order in which each is accepted. The receipt forces process 1 to save; when the others have saved too, line 1 has a
   state of each, and line 2 is refused. The failure line takes process 1 back too, by the receipt that its ground names, resend lists
   the one message, and the audit follows it from its send to a receipt that forced. */
static const struct {
    const char *name;
    void (*call)(void);
    size_t limit;
} calls[] = {
    {"ckpt_fresh", fresh, 511},     {"ckpt_checkpoint", checkpoint, 511}, {"ckpt_send", send, 511},
    {"ckpt_receipt", receipt, 511}, {"ckpt_line", line, 511},             {"ckpt_failed", failed, 4095},
    {"ckpt_grounds", grounds, 4095}, {"ckpt_resend", resend, 4095},       {"ckpt_audit", audit, 1023},
};
enum { LINE = 4, CALLS = sizeof calls / sizeof calls[0] };

static void others_save(void) {
    for (uint32_t p = 2; p < n; p++) ckpt_checkpoint(TABLE, area, CKPT_CHECKPOINT_LENGTH, p);
}

static size_t used(void (*call)(void)) {
    size_t kept = 0;
    memset(stack, PAINT, sizeof stack);
    __asm__ volatile("movq %%rsp, %%r12\n\tmovq %0, %%rsp\n\tcall *%1\n\tmovq %%r12, %%rsp"
                     :
                     : "r"(stack + sizeof stack), "r"(call)
                     : "r12", "rax", "rcx", "rdx", "rsi", "rdi", "r8", "r9", "r10", "r11", "memory", "cc", "xmm0", "xmm1",
                       "xmm2", "xmm3", "xmm4", "xmm5", "xmm6", "xmm7", "xmm8", "xmm9", "xmm10", "xmm11", "xmm12", "xmm13",
                       "xmm14", "xmm15");
    while (kept < sizeof stack && stack[kept] == PAINT) kept++;
    return sizeof stack - kept;
}

static size_t most[CALLS];
static int wrong;

/* Makes the call, which is to return this number, and counts its stack with that of the call in this place. */
static void count(int place, void (*call)(void), uint32_t stated) {
    size_t bytes = used(call);
    if (bytes > most[place]) most[place] = bytes;
    wrong |= returned != stated;
}

int main(void) {
    for (int large = 0; large < 2; large++) {
        n = large ? CKPT_MAX_PROCESSES : SMALL_N;
        e = large ? CKPT_MAX_RECORDS : SMALL_E;
        for (int i = 0; i < CALLS; i++) {
            if (i == LINE) {
                others_save();
                count(LINE, refused_line, CKPT_NO_SAVED_STATE);
            }
            count(i, calls[i].call, CKPT_OK);
        }
    }
    for (int i = 0; i < CALLS; i++) {
        printf("| stack of `%s` | %zu |\n", calls[i].name, (most[i] + 63) / 64 * 64);
        wrong |= most[i] > calls[i].limit;
    }
    return wrong;
}
