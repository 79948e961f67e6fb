/* The checkpoint table of a block controller, its restart lines (document 01), why a process goes back, the messages to send again
   after a restart and the audit of a table that comes from storage (document 02), over lent bytes.

   The caller lends a table and an area for the answer. A call that is accepted returns CKPT_OK. Any other number is that of the
   first check that stopped it, and whatever was lent is then as it was, whatever bytes, lengths and numbers came in. Each call
   below lists the numbers that it can return, in the order in which it checks.

   Words in tables and areas are XDR unsigned integers: four bytes, most significant first. ckpt_word reads one.

   What the caller sees to:
   - A pointer and its length stand for bytes that may be read and, where the pointer is not const, written. Any alignment will do.
   - Table, area, positions and scratch do not overlap. Nobody else writes them during a call, nor reads what the call may write.
   - A null pointer with length 0 is an area of no bytes: no call looks at it, and its length stops the call, if nothing before it
     did. A null pointer with any other length is an error that no call can see.
   - Every call needs less than 4 KiB of stack, ckpt_audit less than 1 KiB, and all but this one, ckpt_failed, ckpt_grounds and
     ckpt_resend less than 512 bytes.

   Calls keep nothing of their own. They may run at the same time on different tables, and ckpt_line, ckpt_failed, ckpt_grounds,
   ckpt_resend and ckpt_audit on one table too, each with its own area, and ckpt_audit with its own scratch, since it writes both. A
   call that is cut short, as by a power cut, may leave a part of what it writes: who keeps tables in storage keeps the last whole one
   until the next is whole, and audits what it loads: a table that gets 1 there is one that these calls make. examples/storage.c shows
   how. */
#ifndef CKPT_H
#define CKPT_H

#include <stddef.h>
#include <stdint.h>

#ifdef __cplusplus
extern "C" {
#endif

/* The version, as one number to compare (0.6.0 is 600) and as text. A record has four words since 0.2.0; a table that an earlier
   version stored is refused by its length. A receipt answers four words since 0.3.0; a shorter area is refused. ckpt_audit is there
   since 0.4.0, and ckpt_grounds is there since 0.5.0. A numbered line without a saved state of each process is refused since 0.6.0. */
#define CKPT_VERSION_MAJOR 0
#define CKPT_VERSION_MINOR 6
#define CKPT_VERSION_PATCH 0
#define CKPT_VERSION (CKPT_VERSION_MAJOR * 10000 + CKPT_VERSION_MINOR * 100 + CKPT_VERSION_PATCH)
#define CKPT_VERSION_STRING CKPT_TEXT(CKPT_VERSION_MAJOR) "." CKPT_TEXT(CKPT_VERSION_MINOR) "." CKPT_TEXT(CKPT_VERSION_PATCH)
#define CKPT_TEXT(macro) CKPT_TEXT_OF(macro)
#define CKPT_TEXT_OF(value) #value

/* The numbers returned. */
#define CKPT_OK 0u                /* accepted */
#define CKPT_BAD_DIMENSIONS 1u    /* n or e outside its range */
#define CKPT_BAD_TABLE_LENGTH 2u  /* the table is under 8 bytes, or its length is not that for n and e */
#define CKPT_NOT_WELL_LAID 3u     /* the table's words are not such as any table has */
#define CKPT_BAD_AREA_LENGTH 4u   /* the area's length is not the answer's */
#define CKPT_BAD_PROCESS 5u       /* acting process: p >= n */
#define CKPT_BAD_OTHER_PROCESS 6u /* other process: q >= n or q = p */
#define CKPT_NOT_SENT 7u          /* q has no send k, or sent it to another process than p */
#define CKPT_ALREADY_RECEIVED 8u  /* p has a receipt of send k of q already */
#define CKPT_NO_RECORDS_LEFT 9u   /* p has fewer records free than needed: 2 for a receipt that forces, else 1 */
#define CKPT_NUMBER_AT_LIMIT 10u  /* p's number is n * e already; not met on tables that these calls made */
#define CKPT_BAD_MASK 11u         /* the mask has a bit at n or above */
#define CKPT_BAD_POSITIONS 12u    /* the positions are not n words, or one is above its process's count of records */
#define CKPT_AREA_TOO_SHORT 13u   /* the area is too short for the messages to send again */
#define CKPT_BAD_SCRATCH 14u      /* the scratch is not as long as the table */
#define CKPT_NO_SAVED_STATE 15u   /* a process has no saved state with this number or more */

/* The grounds that ckpt_grounds answers. */
#define CKPT_GROUND_STAYS 0u   /* it has not failed and stays at its count of records */
#define CKPT_GROUND_FAILED 1u  /* it failed and is at its last checkpoint */
#define CKPT_GROUND_RECEIPT 2u /* a receipt after its position is of a message that is not sent any more */

/* The ranges: n processes, 1 to 16, named 0 to n - 1, with e records each, 1 to 1024. */
#define CKPT_MAX_PROCESSES 16u
#define CKPT_MAX_RECORDS 1024u

/* The words of a record: kind, checkpoint number or other process, send number, carried number. The record at this place of process
   p, counted from 1, begins at this word of a table, which ckpt_word reads. */
#define CKPT_RECORD_WORDS 4ul
#define CKPT_RECORD_AT(e, p, place) (5ul + (p) * (3ul + CKPT_RECORD_WORDS * (e)) + CKPT_RECORD_WORDS * ((place) - 1ul))

/* The lengths in bytes of a table and of each call's answer, for n and e in their ranges. The list of ckpt_resend is as long as its
   count of messages makes it; CKPT_RESEND_MOST is enough for any. */
#define CKPT_TABLE_LENGTH(n, e) (8ul + 4ul * (n) * (3ul + CKPT_RECORD_WORDS * (e)))
#define CKPT_CHECKPOINT_LENGTH 4ul
#define CKPT_SEND_LENGTH 8ul
#define CKPT_RECEIPT_LENGTH 16ul
#define CKPT_LINE_LENGTH(n) (4ul * (n))
#define CKPT_FAILED_LENGTH(n) (4ul * (n) + 8ul)
#define CKPT_GROUNDS_LENGTH(n) (8ul * (n))
#define CKPT_RESEND_LENGTH(count) (4ul + 12ul * (count))
#define CKPT_RESEND_MOST(n, e) (4ul + 12ul * (n) * (e))
#define CKPT_AUDIT_LENGTH 4ul
#define CKPT_SCRATCH_LENGTH(n, e) CKPT_TABLE_LENGTH(n, e) /* the scratch that ckpt_audit is lent besides */

/* Word i of an area, counted from 0. */
static inline uint32_t ckpt_word(const uint8_t *area, size_t i) {
    uint32_t word = 0;
    for (size_t byte = 4 * i; byte < 4 * i + 4; byte++) word = word << 8 | area[byte];
    return word;
}

/* Makes a fresh table of n processes with e records each, over whatever the bytes were.
   Returns CKPT_BAD_DIMENSIONS, CKPT_BAD_TABLE_LENGTH, CKPT_OK. */
uint32_t ckpt_fresh(uint8_t *table, size_t table_len, uint32_t n, uint32_t e);

/* Process p saves its state. Adds the checkpoint to the table; the area gets its number.
   Returns CKPT_BAD_TABLE_LENGTH, CKPT_BAD_DIMENSIONS, CKPT_NOT_WELL_LAID, CKPT_BAD_AREA_LENGTH, CKPT_BAD_PROCESS,
   CKPT_NO_RECORDS_LEFT, CKPT_NUMBER_AT_LIMIT, CKPT_OK. */
uint32_t ckpt_checkpoint(uint8_t *table, size_t table_len, uint8_t *area, size_t area_len, uint32_t p);

/* Process p sends a message to q. Adds the send to the table; the area gets its send number, which with p names the message, and
   the number it carries.
   Returns CKPT_BAD_TABLE_LENGTH, CKPT_BAD_DIMENSIONS, CKPT_NOT_WELL_LAID, CKPT_BAD_AREA_LENGTH, CKPT_BAD_PROCESS,
   CKPT_BAD_OTHER_PROCESS, CKPT_NO_RECORDS_LEFT, CKPT_OK. */
uint32_t ckpt_send(uint8_t *table, size_t table_len, uint8_t *area, size_t area_len, uint32_t p, uint32_t q);

/* Process p receives send k of q, in any order, each once. Adds the receipt to the table, and a forced checkpoint before it where
   one is due. The area gets the carried number, then 1 if it forced and 0 if not: after a 1 the host saves the state of p before p
   takes the message. Then it gets the place of the send among q's records and that of the receipt among p's, both counted from 1:
   how far the message travelled. The receipt is p's last record, so that its place is p's count of records from now on; a forced
   checkpoint has the place before it.
   Returns CKPT_BAD_TABLE_LENGTH, CKPT_BAD_DIMENSIONS, CKPT_NOT_WELL_LAID, CKPT_BAD_AREA_LENGTH, CKPT_BAD_PROCESS,
   CKPT_BAD_OTHER_PROCESS, CKPT_NOT_SENT, CKPT_ALREADY_RECEIVED, CKPT_NO_RECORDS_LEFT, CKPT_OK. */
uint32_t ckpt_receipt(uint8_t *table, size_t table_len, uint8_t *area, size_t area_len, uint32_t p, uint32_t q, uint32_t k);

/* Numbered line: the area gets a position for each process, how many of its records have happened there. It is that of its first
   checkpoint with this number or more, so that the host has saved a state for each. The state when the table was fresh counts as
   saved, at position 0 with the number 0: line 0 has it for every process and is never refused. A line that some process has no saved
   state for is refused, and names no running state in its place. On a table that these calls made, a line is answered exactly when its
   number is not above any process's number. Any number may be asked for; the table stays as it is.
   Returns CKPT_BAD_TABLE_LENGTH, CKPT_BAD_DIMENSIONS, CKPT_NOT_WELL_LAID, CKPT_BAD_AREA_LENGTH, CKPT_NO_SAVED_STATE, CKPT_OK. */
uint32_t ckpt_line(const uint8_t *table, size_t table_len, uint8_t *area, size_t area_len, uint32_t number);

/* Failure line: bit p of the mask, counted from the lowest as 0, is set where process p failed. A failed process may be at 0, its
   state when the table was fresh, or at a checkpoint; another may also be at its count of records, its running state. The area gets
   the latest of these positions at which no message is received but unsent, one for each process, then the mask of the processes
   that go back, which are those that failed and those whose position is below their count, then how many they are. The host reloads
   the processes of this mask, and no other. The table stays as it is.
   Returns CKPT_BAD_TABLE_LENGTH, CKPT_BAD_DIMENSIONS, CKPT_NOT_WELL_LAID, CKPT_BAD_AREA_LENGTH, CKPT_BAD_MASK, CKPT_OK. */
uint32_t ckpt_failed(const uint8_t *table, size_t table_len, uint8_t *area, size_t area_len, uint32_t mask);

/* Why each process is where the failure line of this mask has it, for field service; ckpt_failed with the same mask answers where.
   The area gets two words for each process, its ground and a place:
   - CKPT_GROUND_STAYS, 0: it has not failed and is at its count of records. It goes on.
   - CKPT_GROUND_FAILED, 0: it failed and is at its last checkpoint, or at 0 where it has no checkpoint record.
   - CKPT_GROUND_RECEIPT and a place: its first receipt after its position of a message that is unsent there, as the sender goes back
     to before the send. Every later state that the process might have been at has received this message. In a table that no calls
     made it may also be one that was never sent to this process. The place is counted from 1 among the records of the process, and
     the words at CKPT_RECORD_AT(e, p, place) of the table have the message's sender and send number.
   The processes with a ground other than CKPT_GROUND_STAYS are those of the mask that ckpt_failed answers. The table stays as it is.
   Returns CKPT_BAD_TABLE_LENGTH, CKPT_BAD_DIMENSIONS, CKPT_NOT_WELL_LAID, CKPT_BAD_AREA_LENGTH, CKPT_BAD_MASK, CKPT_OK. */
uint32_t ckpt_grounds(const uint8_t *table, size_t table_len, uint8_t *area, size_t area_len, uint32_t mask);

/* What to send again after a restart at these positions: n words, as ckpt_line answers them, or the first n that ckpt_failed does.
   They may be any cut, each position from 0 to its process's count of records. The area gets the count of the messages sent before
   their sender's position and not received before their receiver's, then sender, send number and receiver of each, by sender and
   then send number. A message that is received but unsent there is not listed. The area may be longer than that: its bytes after
   the last entry stay as they are, and so do table and positions.
   Returns CKPT_BAD_TABLE_LENGTH, CKPT_BAD_DIMENSIONS, CKPT_NOT_WELL_LAID, CKPT_BAD_POSITIONS, CKPT_AREA_TOO_SHORT, CKPT_OK. */
uint32_t ckpt_resend(const uint8_t *table, size_t table_len, const uint8_t *positions, size_t positions_len, uint8_t *area,
                     size_t area_len);

/* Audits a table that comes from storage. The area gets 1 if some run of accepted checkpoints, sends and receipts from a fresh table
   leaves precisely these bytes, else 0: a table may be well laid and yet come from no run, as one in which two receipts each wait
   for the other. One that gets 1 has all that holds of tables made by these calls. A table that is not well laid is refused, and
   gets no 0. The scratch is room for the call, as long as the table, and may hold anything before. What it holds after an accepted
   call is left open; a refused call leaves it as it was. The table stays as it is.
   Returns CKPT_BAD_TABLE_LENGTH, CKPT_BAD_DIMENSIONS, CKPT_NOT_WELL_LAID, CKPT_BAD_AREA_LENGTH, CKPT_BAD_SCRATCH, CKPT_OK. */
uint32_t ckpt_audit(const uint8_t *table, size_t table_len, uint8_t *area, size_t area_len, uint8_t *scratch, size_t scratch_len);

#ifdef __cplusplus
}
#endif

#endif
