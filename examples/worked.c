/* The worked controller of document 01, with the places that document 02 adds to its receipts: runs its calls, prints each with what
   it answers, and exits with 1 where an answer is not the documents'. */
#include <stdarg.h>
#include <stdio.h>
#include <string.h>

#include <ckpt.h>

enum { N = 3, E = 6 };

static uint8_t table[CKPT_TABLE_LENGTH(N, E)];
static uint8_t area[CKPT_FAILED_LENGTH(N)];
static int wrong;

/* Prints the number returned and the answer's words, and compares them with the documents'. */
static void told(const char *call, uint32_t returned, uint32_t stated, int words, ...) {
    va_list said;
    int same = returned == stated;
    printf("%-22s %u", call, (unsigned)returned);
    va_start(said, words);
    for (int i = 0; i < words; i++) {
        uint32_t answer = ckpt_word(area, (size_t)i);
        printf("  %u", (unsigned)answer);
        same &= answer == (uint32_t)va_arg(said, int);
    }
    va_end(said);
    puts(same ? "" : "   <- not the documents'");
    wrong |= !same;
}

#define LENT table, sizeof table, area

int main(void) {
    puts("call                   returned, then the answer's words");
    told("fresh 3, 6", ckpt_fresh(table, sizeof table, N, E), CKPT_OK, 0);
    told("checkpoint 0", ckpt_checkpoint(LENT, CKPT_CHECKPOINT_LENGTH, 0), CKPT_OK, 1, 1);
    told("send 0 to 1", ckpt_send(LENT, CKPT_SEND_LENGTH, 0, 1), CKPT_OK, 2, 1, 1);
    told("send 1 to 2", ckpt_send(LENT, CKPT_SEND_LENGTH, 1, 2), CKPT_OK, 2, 1, 0);
    told("receipt at 1 of (0, 1)", ckpt_receipt(LENT, CKPT_RECEIPT_LENGTH, 1, 0, 1), CKPT_OK, 4, 1, 1, 2, 3);
    told("send 1 to 2", ckpt_send(LENT, CKPT_SEND_LENGTH, 1, 2), CKPT_OK, 2, 2, 1);
    told("receipt at 2 of (1, 2)", ckpt_receipt(LENT, CKPT_RECEIPT_LENGTH, 2, 1, 2), CKPT_OK, 4, 1, 1, 4, 2);
    told("receipt at 2 of (1, 1)", ckpt_receipt(LENT, CKPT_RECEIPT_LENGTH, 2, 1, 1), CKPT_OK, 4, 0, 0, 1, 3);
    told("line 0", ckpt_line(LENT, CKPT_LINE_LENGTH(N), 0), CKPT_OK, 3, 0, 0, 0);
    told("line 1", ckpt_line(LENT, CKPT_LINE_LENGTH(N), 1), CKPT_OK, 3, 1, 2, 1);
    told("line 2", ckpt_line(LENT, CKPT_LINE_LENGTH(N), 2), CKPT_NO_SAVED_STATE, 0);
    told("failed 0", ckpt_failed(LENT, CKPT_FAILED_LENGTH(N), 0), CKPT_OK, 5, 2, 4, 3, 0, 0);
    told("failed 1", ckpt_failed(LENT, CKPT_FAILED_LENGTH(N), 1), CKPT_OK, 5, 1, 2, 1, 7, 3);
    told("failed 2", ckpt_failed(LENT, CKPT_FAILED_LENGTH(N), 2), CKPT_OK, 5, 2, 2, 1, 6, 2);
    told("failed 4", ckpt_failed(LENT, CKPT_FAILED_LENGTH(N), 4), CKPT_OK, 5, 2, 4, 1, 4, 1);
    told("failed 8", ckpt_failed(LENT, CKPT_FAILED_LENGTH(N), 8), CKPT_BAD_MASK, 0);
    told("receipt at 2 of (1, 1)", ckpt_receipt(LENT, CKPT_RECEIPT_LENGTH, 2, 1, 1), CKPT_ALREADY_RECEIVED, 0);
    told("receipt at 1 of (0, 2)", ckpt_receipt(LENT, CKPT_RECEIPT_LENGTH, 1, 0, 2), CKPT_NOT_SENT, 0);
    return wrong;
}
