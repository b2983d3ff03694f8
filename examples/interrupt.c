/* A drive in an interrupt, to start from. The handler is what you copy, with your own registers in the place of `station`; the lines from
 * `drive` to the end of the handler stand in mirgalhet.h too. Below it are the calls of the main line, and then a small station that makes
 * it all run on a desk: a table of samples, and what the pulse unit got, in print. interrupt.rs is the same in Rust, and writes the same.
 * bin/library says how to compile and link it. */
#include <stdio.h>

#include "mirgalhet.h"

/* The registers: currents and count come in, compares and the enable of the gates go out. */
static volatile struct {
    int32_t ia, ib, count;
    int32_t a, b, c;
    bool gates;
} station;

static mirgalhet_drive drive;    // zeroed, and so broken until it is started
static volatile int32_t refused; // the number that took the gates away, or 0

void pulse_interrupt(void)
{
    mirgalhet_output o = mirgalhet_step(&drive, station.ia, station.ib, station.count);

    if (o.number == MIRGALHET_ACCEPTED) {
        station.a = o.a;
        station.b = o.b;
        station.c = o.c;
        station.gates = true;
    } else {
        station.gates = false;
        if (refused == MIRGALHET_ACCEPTED)
            refused = o.number;
    }
}

/* The main line. The handler must not come in the middle of a call on its record, so each of these keeps it out: put in what your
 * processor has for that. On a desk nothing interrupts. */
static void interrupts_off(void) {}
static void interrupts_on(void) {}

static int32_t start(mirgalhet_settings settings)
{
    interrupts_off();
    int32_t number = mirgalhet_start(&drive, settings);
    if (number == MIRGALHET_ACCEPTED)
        refused = MIRGALHET_ACCEPTED;
    interrupts_on();
    return number;
}

static int32_t target(int32_t wanted)
{
    interrupts_off();
    int32_t number = mirgalhet_target(&drive, wanted);
    interrupts_on();
    return number;
}

/* Whoever clears a trip has found out what it was. The drive is fresh then, and its target 0. */
static int32_t clear(void)
{
    interrupts_off();
    int32_t number = mirgalhet_clear(&drive);
    if (number == MIRGALHET_ACCEPTED)
        refused = MIRGALHET_ACCEPTED;
    interrupts_on();
    return number;
}

/* The desk. The bench set, in the order of docs/RULES.md, "Settings". */
static const mirgalhet_settings bench = {
    600,                        /* T */
    8192, 64, 128,              /* speed Kp, Kcor, Ki */
    4096, 256, 256,             /* current Kp, Kcor, Ki */
    4096, 3277,                 /* V, Q */
    75, 310, 164, 64, 2458, 41, /* Kr, Kt, Kth, Kn, F, R */
};

/* Samples, a row for each period: ia, ib, count. The fifth has a current that is out of range, and trips. */
static const int32_t samples[8][3] = {
    {0, 0, 0}, {310, -160, 2}, {590, -280, 4}, {840, -430, 6}, {9000, -430, 8}, {1050, -520, 10}, {240, -130, 65534}, {460, -220, 0},
};

static void periods(int first, int past)
{
    for (int k = first; k < past; k++) {
        station.ia = samples[k][0];
        station.ib = samples[k][1];
        station.count = samples[k][2];
        pulse_interrupt();
        if (station.gates)
            printf("compares %d %d %d, gates on\n", (int)station.a, (int)station.b, (int)station.c);
        else
            printf("gates off, number %d\n", (int)refused);
    }
}

int main(void)
{
    periods(0, 1);
    printf("start %d\n", (int)start(bench));
    printf("target %d\n", (int)target(2048));
    periods(0, 6);
    printf("target %d\n", (int)target(2048));
    printf("clear %d\n", (int)clear());
    printf("target %d\n", (int)target(2048));
    periods(6, 8);
    return 0;
}
