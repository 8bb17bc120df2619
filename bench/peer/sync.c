/* A sync that sleeps, for figures of serve.sh that don't depend on a disk. It is preloaded into a gateway: each sync of a
 * file's octets sleeps for as many microseconds as SYNC in the environment says, and nothing is synced. */
#define _GNU_SOURCE
#include <stdlib.h>
#include <sys/prctl.h>
#include <time.h>

int fdatasync(int file) {
    (void)file;
    const char *micros = getenv("SYNC");
    struct timespec pause = {.tv_nsec = 1000 * (micros ? atol(micros) : 0)};
    /* so long and no longer: a thread sleeps 50 us more by default */
    prctl(PR_SET_TIMERSLACK, 1, 0, 0, 0);
    return clock_nanosleep(CLOCK_MONOTONIC, 0, &pause, NULL);
}
