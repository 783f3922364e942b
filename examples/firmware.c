/* A recorder's firmware in small: one turn a tick, driving only on leave, with a watchdog that is fed only while all is well.
 * The rack around it is played by this program: three observers that grant at once until the network is lost. It prints what
 * happened, and the test compares that with what document 01 says. */
#include "recorder.h"

#include <inttypes.h>
#include <stdio.h>

static const uint64_t settings[RECORDER_SETTINGS] = {3, 2, 100, 40, 159, 235, 10};
static uint8_t record[RECORDER_BYTES]; /* all zero: a new record */

/* One turn at a reading. Returns 1 if the valves may be moved now. */
static int turn(uint64_t reading, int network)
{
    uint32_t answer = recorder_tick(settings, reading, record, sizeof record);
    if (answer == RECORDER_SEND) {
        uint64_t number = recorder_counter(record);
        uint64_t observer;
        printf("%" PRIu64 ": send LEASE-REQUEST %" PRIu64 "\n", reading, number);
        for (observer = 0; network && observer < settings[0]; observer++)
            answer = recorder_grant(settings, reading, observer, number, record, sizeof record);
    }
    return recorder_drive(settings, reading, record, sizeof record) == RECORDER_RUNNING;
}

int main(void)
{
    uint64_t reading;
    int driving = 0;
    for (reading = 1000; reading < 1500; reading += 10) { /* a clock that shows tens */
        int may_drive = turn(reading, reading < 1250);    /* the network is lost at 1250 */
        if (may_drive != driving)
            printf("%" PRIu64 ": %s\n", reading, may_drive ? "drives, watchdog fed" : "stops, watchdog left to bark");
        driving = may_drive;
    }
    return 0;
}
