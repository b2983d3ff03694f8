/* The flux first, then the speed: without flux in the rotor a q current makes no torque. The handler is the one of interrupt.c, and tells the
 * main line the flux that the drive has reckoned; once that is up, the main line sets the target.
 * Below is a desk to run it on. The shaft stands, and all current is on the d axis, as much as the flux reference asks for: the flux comes up
 * to it within one count and rests there. bin/library says how to compile and link it; bin/interrupt_example compares what it writes with
 * flux.out. */
#include <stdio.h>

#include "mirgalhet.h"

/* The registers: currents and count come in, compares and the enable of the gates go out. */
static volatile struct {
    int32_t ia, ib, count;
    int32_t a, b, c;
    bool gates;
} station;

static mirgalhet_drive drive;    // zeroed, and so broken until it is started
static volatile int32_t refused; // the number that took the gates away, or 0
static volatile int32_t flux;    // after the last step that was accepted

void pulse_interrupt(void)
{
    mirgalhet_output o = mirgalhet_step(&drive, station.ia, station.ib, station.count);

    if (o.number == MIRGALHET_ACCEPTED) {
        station.a = o.a;
        station.b = o.b;
        station.c = o.c;
        station.gates = true;
        flux = mirgalhet_flux(drive.field.fine);
    } else {
        station.gates = false;
        if (refused == MIRGALHET_ACCEPTED)
            refused = o.number;
    }
}

/* The desk. The bench set, in the order of docs/RULES.md, "Settings". */
static const mirgalhet_settings bench = {
    600,                        /* T */
    8192, 64, 128,              /* speed Kp, Kcor, Ki */
    4096, 256, 256,             /* current Kp, Kcor, Ki */
    4096, 3277,                 /* V, Q */
    75, 310, 164, 64, 2458, 41, /* Kr, Kt, Kth, Kn, F, R */
};

/* One period: what goes into phase a comes back by halves through b and c, which at angle 0 is d alone. */
static void period(void)
{
    station.ia = bench.f;
    station.ib = -bench.f / 2;
    station.count = 0;
    pulse_interrupt();
}

/* After how many steps a line is written: the first, some on the way, where the flux becomes 2457, where fine rests, and long after. */
static const int32_t told[] = {1, 2, 10, 50, 100, 200, 400, 422, 423, 687, 688, 10000};

int main(void)
{
    int32_t steps = 0;
    bool up = false;

    printf("start %d\n", (int)mirgalhet_start(&drive, bench));
    for (size_t k = 0; k < sizeof told / sizeof told[0]; k++) {
        while (steps < told[k]) {
            period();
            steps++;
            if (!up && flux >= bench.f * 19 / 20) {
                up = true;
                printf("flux %d after %d steps, target %d\n", (int)flux, (int)steps, (int)mirgalhet_target(&drive, 2048));
            }
        }
        printf("after %d steps: flux %d, fine %d\n", (int)steps, (int)flux, (int)drive.field.fine);
    }
    printf("refused %d\n", (int)refused);
    return 0;
}
