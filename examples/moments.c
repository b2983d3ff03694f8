/* What led to a trip. The handler is the one of interrupt.c with a recorded step in it. Once a step was refused, the main line prints the rows
 * of the last moments, and the interrupt goes on meanwhile: a refused step stores nothing, so that no row moves. Only then it clears.
 * Below is a desk to run it on, a motor that is driven faster and faster until its current is out of range. bin/library says how to compile
 * and link it; bin/interrupt_example compares what it writes with moments.out. */
#include <stdio.h>

#include "mirgalhet.h"

/* The registers: currents and count come in, compares and the enable of the gates go out. */
static volatile struct {
    int32_t ia, ib, count;
    int32_t a, b, c;
    bool gates;
} station;

static mirgalhet_drive drive;     // zeroed, and so broken until it is started
static mirgalhet_moments moments; // zeroed, and so empty
static volatile int32_t refused;  // the number that took the gates away, or 0

void pulse_interrupt(void)
{
    mirgalhet_output o = mirgalhet_recorded_step(&drive, &moments, station.ia, station.ib, station.count);

    if (o.number == MIRGALHET_ACCEPTED) {
        station.a = o.a;
        station.b = o.b;
        station.c = o.c;
        station.gates = true;
    } else {
        station.gates = false;
        if (refused == MIRGALHET_ACCEPTED)
            refused = o.number;
    }
}

/* The desk. The bench set, in the order of docs/RULES.md, "Settings". */
static const mirgalhet_settings bench = {
    600,                        /* T */
    8192, 64, 128,              /* speed Kp, Kcor, Ki */
    4096, 256, 256,             /* current Kp, Kcor, Ki */
    4096, 3277,                 /* V, Q */
    75, 310, 164, 64, 2458, 41, /* Kr, Kt, Kth, Kn, F, R */
};

/* One period, the k-th: the shaft gains speed all the time, and the currents grow with it. */
static void period(int32_t k)
{
    station.ia = k * k * 2 / 5;
    station.ib = -7 * k;
    station.count = 2 * k * k % 65536;
    pulse_interrupt();
}

/* A row as a workshop wants to see it. The interrupt comes before each, as it may after a trip. */
static void print_row(int32_t i, int32_t k)
{
    period(k);
    mirgalhet_row r = mirgalhet_recorded_row(&moments, i);
    if (r.number == MIRGALHET_ACCEPTED)
        printf("row %d: ia %d ib %d speed %d compares %d %d %d\n",
               (int)i, (int)r.ia, (int)r.ib, (int)r.speed, (int)r.a, (int)r.b, (int)r.c);
    else
        printf("row %d: number %d\n", (int)i, (int)r.number);
}

int main(void)
{
    int32_t k = 0;

    /* On a desk nothing interrupts. Elsewhere the interrupt is kept out of start, target and clear: interrupt.c shows where. */
    printf("start %d\n", (int)mirgalhet_recorded_start(&drive, &moments, bench));
    printf("target %d\n", (int)mirgalhet_target(&drive, 2048));
    while (refused == MIRGALHET_ACCEPTED)
        period(k++);
    printf("trip: number %d, after %d accepted steps\n", (int)refused, (int)k - 1);

    int32_t count = mirgalhet_recorded_count(&moments);
    printf("rows: %d\n", (int)count);
    print_row(0, k); // the oldest
    for (int32_t i = count - 8; i <= count; i++)
        print_row(i, k + i); // the eight newest, and one that is not there

    printf("clear %d\n", (int)mirgalhet_recorded_clear(&drive, &moments));
    printf("rows: %d\n", (int)mirgalhet_recorded_count(&moments));
    return 0;
}
