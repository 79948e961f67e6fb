/* The calls of document 01's listing, each of the six once, a line that is refused, and then grounds, resend and the audit, in a
   program without a C library, for x86-64 Linux. It brings the function that the archive asks for and its own entry. Status 0 where every answer is the documents'. */
#include <ckpt.h>

void *memset(void *to, int value, size_t length) {
    uint8_t *t = to;
    while (length--) *t++ = (uint8_t)value;
    return to;
}

enum { N = 2, E = 4 };

static uint8_t table[CKPT_TABLE_LENGTH(N, E)];
static uint8_t area[CKPT_RESEND_MOST(N, E)];
static uint8_t scratch[CKPT_SCRATCH_LENGTH(N, E)];
/* Process 0 at its send, process 1 at the checkpoint before the receipt: the message is in transit. */
static const uint8_t positions[] = {0, 0, 0, 2, 0, 0, 0, 1};
#define LENT table, sizeof table, area

/* Whether a call was accepted with these words as its answer. */
static int answers(uint32_t returned, int words, const uint32_t *stated) {
    int same = returned == CKPT_OK;
    for (int i = 0; i < words; i++) same &= ckpt_word(area, (size_t)i) == stated[i];
    return same;
}

#define ANSWERS(returned, ...) \
    answers(returned, (int)(sizeof(uint32_t[]){__VA_ARGS__} / sizeof(uint32_t)), (uint32_t[]){__VA_ARGS__})

static int listing(void) {
    int same = ckpt_fresh(table, sizeof table, N, E) == CKPT_OK;
    same &= ANSWERS(ckpt_checkpoint(LENT, CKPT_CHECKPOINT_LENGTH, 0), 1);
    same &= ANSWERS(ckpt_send(LENT, CKPT_SEND_LENGTH, 0, 1), 1, 1);
    same &= ANSWERS(ckpt_receipt(LENT, CKPT_RECEIPT_LENGTH, 1, 0, 1), 1, 1, 2, 2);
    same &= ANSWERS(ckpt_line(LENT, CKPT_LINE_LENGTH(N), 1), 1, 1);
    same &= ckpt_line(LENT, CKPT_LINE_LENGTH(N), 2) == CKPT_NO_SAVED_STATE;
    same &= ANSWERS(ckpt_failed(LENT, CKPT_FAILED_LENGTH(N), 1), 1, 1, 3, 2);
    same &= ANSWERS(ckpt_grounds(LENT, CKPT_GROUNDS_LENGTH(N), 1), CKPT_GROUND_FAILED, 0, CKPT_GROUND_RECEIPT, 2);
    same &= ANSWERS(ckpt_resend(table, sizeof table, positions, sizeof positions, area, CKPT_RESEND_LENGTH(1)), 1, 0, 1, 1);
    same &= ANSWERS(ckpt_audit(LENT, CKPT_AUDIT_LENGTH, scratch, sizeof scratch), 1);
    return same;
}

/* Called by the entry below: ends the program by Linux's exit. */
__attribute__((noreturn, used)) static void run(void) {
    long status = !listing();
    for (;;) __asm__ volatile("syscall" : : "a"(60l), "D"(status) : "rcx", "r11", "memory");
}

__asm__(".globl _start\n_start:\n\txorl %ebp, %ebp\n\tandq $-16, %rsp\n\tcall run\n");
