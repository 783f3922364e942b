/* recorder.h: the recorder's steps for C firmware.
 *
 * A step takes the settings, a reading and the record, changes the record in place and returns one number. A refused step
 * returns its number and writes no byte. What each step does stands in docs/RULES.md, 3 and 8; that these functions do it, for
 * every input and every buffer, is proved (docs/PROMISES.md).
 *
 * Settings: seven numbers in the order n, t, eta, delta, P, O, G. They are the same for all parties of a rack and do not
 * change while it runs.
 *
 * Record: RECORDER_BYTES bytes, 85 words of 8 bytes each, the low byte first on every machine. No alignment is asked for.
 *
 *   offset  words  content
 *        0      1  stopped: 0, or 1 once the recorder has stopped for good
 *        8      1  counter: the number of the last request
 *       16      1  reading of the last send
 *       24      1  last reading
 *       32      1  number of open leases
 *       40     64  send readings of the open leases, oldest first; unused places 0
 *      552     16  highest grant from each observer; unused places 0
 *
 * A new record is all zero. It is not stored: a recorder that lost its record has stopped, and is not started again with a
 * new one while the rack runs.
 *
 * The functions use no heap, keep no state, do not call back and may be called for several records at once. A call takes at
 * most RECORDER_STACK bytes of stack (measured on x86-64, not proved). Settings and record must not overlap, and neither is
 * NULL. One call at a time may use a record.
 */
#ifndef RECORDER_H
#define RECORDER_H

#include <stddef.h>
#include <stdint.h>

#ifdef __cplusplus
extern "C" {
#endif

/* The version of these calls: a new major number where a caller has to change (calls, numbers, layout), a new minor number
 * where it need not. docs/CHANGES.md says what changed. */
#define RECORDER_VERSION_MAJOR 1
#define RECORDER_VERSION_MINOR 0

#define RECORDER_SETTINGS 7
#define RECORDER_WORDS 85
#define RECORDER_BYTES 680
#define RECORDER_STACK 6144u

/* Answers. */
#define RECORDER_UNREGISTERED 100u /* too few observers have granted yet: do not drive */
#define RECORDER_RUNNING 101u      /* in answer to a drive: drive now */
#define RECORDER_STOPPED 102u      /* a lease has run out: never drive again */
#define RECORDER_SEND 103u         /* tick only: send LEASE-REQUEST with recorder_counter(record) to all observers */

/* Refusals: nothing was changed. The lowest number that applies is given. */
#define RECORDER_BAD_SETTING 1u   /* a setting is out of range */
#define RECORDER_BAD_SLACK 2u     /* the settings do not fit each other */
#define RECORDER_BAD_RECORD 3u    /* the record does not have its form */
#define RECORDER_BAD_READING 4u   /* a reading above 2^40 - 1, or below the last */
#define RECORDER_BAD_OBSERVER 5u  /* grant: observer n or more */
#define RECORDER_BAD_COUNTER 6u   /* grant: number 0, or above the counter */
#define RECORDER_BAD_LENGTH 10u   /* length is not RECORDER_BYTES */

/* At least every few ticks: says when a lease is to be renewed, and notices when one has run out. */
uint32_t recorder_tick(const uint64_t settings[RECORDER_SETTINGS], uint64_t reading, uint8_t *record, size_t length);

/* A LEASE-GRANT of that number has arrived from that observer. */
uint32_t recorder_grant(const uint64_t settings[RECORDER_SETTINGS], uint64_t reading, uint64_t observer, uint64_t number,
                        uint8_t *record, size_t length);

/* Before each stroke: only RECORDER_RUNNING allows it, and only now. */
uint32_t recorder_drive(const uint64_t settings[RECORDER_SETTINGS], uint64_t reading, uint8_t *record, size_t length);

/* The counter of a record: after RECORDER_SEND, the number to be sent. */
static inline uint64_t recorder_counter(const uint8_t record[RECORDER_BYTES])
{
    uint64_t counter = 0;
    int i;
    for (i = 7; i >= 0; i--)
        counter = counter << 8 | record[8 + i];
    return counter;
}

#ifdef __cplusplus
}
#endif

#endif
