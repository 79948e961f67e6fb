/* Engines that the bench must refuse (tests/bench.sh --faults): ckpt_send, ckpt_line, ckpt_failed, ckpt_grounds, ckpt_resend and
   ckpt_audit of the archive, wrapped by the linker. -DCHECKS=N makes the peer check the table N times before ckpt_send, and -DAFTER=.. is
   what that does last. -DLINES=N makes the peer look N times for the line before ckpt_line does, -DREPEATS=N for that before ckpt_failed
   does, -DREASONS=N for the grounds before ckpt_grounds does, -DLISTS=N list the messages N times before ckpt_resend does, and
   -DAUDITS=N audit the table N times before ckpt_audit does; -DLINED=.., -DGROUNDED=.., -DLISTED=.. and -DAUDITED=.. are what four of
   these do last. An engine that waits for the peer is slower than the peer on every machine. Without these they do what the archive's
   do. */
#include "../include/ckpt.h"

uint32_t __real_ckpt_send(uint8_t *table, size_t table_len, uint8_t *area, size_t area_len, uint32_t p, uint32_t q);
uint32_t __real_ckpt_line(const uint8_t *table, size_t table_len, uint8_t *area, size_t area_len, uint32_t number);
uint32_t __real_ckpt_failed(const uint8_t *table, size_t table_len, uint8_t *area, size_t area_len, uint32_t mask);
uint32_t __real_ckpt_grounds(const uint8_t *table, size_t table_len, uint8_t *area, size_t area_len, uint32_t mask);
uint32_t __real_ckpt_resend(const uint8_t *table, size_t table_len, const uint8_t *positions, size_t positions_len, uint8_t *area,
                            size_t area_len);
uint32_t __real_ckpt_audit(const uint8_t *table, size_t table_len, uint8_t *area, size_t area_len, uint8_t *scratch,
                           size_t scratch_len);

extern __typeof__(ckpt_line) peer_line;
extern __typeof__(ckpt_failed) peer_failed;
extern __typeof__(ckpt_grounds) peer_grounds;
extern __typeof__(ckpt_resend) peer_resend;
extern __typeof__(ckpt_audit) peer_audit;

#ifndef CHECKS
#define CHECKS 0
#endif
#ifndef AFTER
#define AFTER (void)0
#endif
#ifndef LINES
#define LINES 0
#endif
#ifndef LINED
#define LINED (void)0
#endif
#ifndef REPEATS
#define REPEATS 0
#endif
#ifndef REASONS
#define REASONS 0
#endif
#ifndef GROUNDED
#define GROUNDED (void)0
#endif
#ifndef LISTS
#define LISTS 0
#endif
#ifndef LISTED
#define LISTED (void)0
#endif
#ifndef AUDITS
#define AUDITS 0
#endif
#ifndef AUDITED
#define AUDITED (void)0
#endif

uint32_t __wrap_ckpt_send(uint8_t *table, size_t table_len, uint8_t *area, size_t area_len, uint32_t p, uint32_t q) {
    /* An area of no bytes stops a line once the table is checked. */
    for (int left = (int)(CHECKS); left > 0; left--) peer_line(table, table_len, area, 0, 0);
    uint32_t returned = __real_ckpt_send(table, table_len, area, area_len, p, q);
    AFTER;
    return returned;
}

uint32_t __wrap_ckpt_line(const uint8_t *table, size_t table_len, uint8_t *area, size_t area_len, uint32_t number) {
    for (int left = LINES; left > 0; left--) peer_line(table, table_len, area, area_len, number);
    uint32_t returned = __real_ckpt_line(table, table_len, area, area_len, number);
    LINED;
    return returned;
}

uint32_t __wrap_ckpt_failed(const uint8_t *table, size_t table_len, uint8_t *area, size_t area_len, uint32_t mask) {
    for (int left = REPEATS; left > 0; left--) peer_failed(table, table_len, area, area_len, mask);
    return __real_ckpt_failed(table, table_len, area, area_len, mask);
}

uint32_t __wrap_ckpt_grounds(const uint8_t *table, size_t table_len, uint8_t *area, size_t area_len, uint32_t mask) {
    for (int left = REASONS; left > 0; left--) peer_grounds(table, table_len, area, area_len, mask);
    uint32_t returned = __real_ckpt_grounds(table, table_len, area, area_len, mask);
    GROUNDED;
    return returned;
}

uint32_t __wrap_ckpt_resend(const uint8_t *table, size_t table_len, const uint8_t *positions, size_t positions_len, uint8_t *area,
                            size_t area_len) {
    for (int left = LISTS; left > 0; left--) peer_resend(table, table_len, positions, positions_len, area, area_len);
    uint32_t returned = __real_ckpt_resend(table, table_len, positions, positions_len, area, area_len);
    LISTED;
    return returned;
}

uint32_t __wrap_ckpt_audit(const uint8_t *table, size_t table_len, uint8_t *area, size_t area_len, uint8_t *scratch,
                           size_t scratch_len) {
    for (int left = AUDITS; left > 0; left--) peer_audit(table, table_len, area, area_len, scratch, scratch_len);
    uint32_t returned = __real_ckpt_audit(table, table_len, area, area_len, scratch, scratch_len);
    AUDITED;
    return returned;
}
