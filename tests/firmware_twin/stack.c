/* How much stack the calls use: they run on a painted stack of their own, for records with 0 to 64 open leases and for the step
 * at which all of those end. Fails above what include/recorder.h promises. */
#include "recorder.h"

#include <stdio.h>
#include <string.h>
#include <ucontext.h>

static unsigned char stack[65536];
static ucontext_t here, there;
static uint8_t record[RECORDER_BYTES];

static void nothing(void) {}

static void calls(void)
{
    static const uint64_t settings[RECORDER_SETTINGS] = {16, 16, 1, 1, 64, 65, 1};
    uint64_t reading, observer;
    for (reading = 0; reading < 64; reading++) {
        recorder_tick(settings, reading, record, sizeof record);
        for (observer = 0; observer < 16; observer++)
            recorder_grant(settings, reading, observer, reading + 1, record, sizeof record);
        recorder_drive(settings, reading, record, sizeof record);
    }
    recorder_drive(settings, 1000, record, sizeof record);
    recorder_tick(settings, 999, record, sizeof record);
}

/* The bytes of the stack that have lost their paint. */
static size_t used_by(void (*work)(void))
{
    size_t untouched = 0;
    memset(stack, 0xA5, sizeof stack);
    getcontext(&there);
    there.uc_stack.ss_sp = stack;
    there.uc_stack.ss_size = sizeof stack;
    there.uc_link = &here;
    makecontext(&there, work, 0);
    swapcontext(&here, &there);
    while (untouched < sizeof stack && stack[untouched] == 0xA5)
        untouched++;
    return sizeof stack - untouched;
}

int main(void)
{
    size_t idle, busy;
    used_by(calls); /* the first call of memcpy binds it, on this stack */
    memset(record, 0, sizeof record);
    idle = used_by(nothing);
    busy = used_by(calls);
    printf("stack: %zu bytes of %u\n", busy - idle, RECORDER_STACK);
    return busy - idle <= RECORDER_STACK ? 0 : 1;
}
