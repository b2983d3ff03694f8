/* More voltage than the period holds. A blower starts hard: its currents have hardly come up, so that the regulators give all the voltage they
 * may, and it turns with the field. Nearly every step is clipped then: its voltage gets shorter and is not turned, so that it pulls the way it
 * was meant to. What a motor has between two phases is the difference of their on-times. Behind each stands in brackets, to the nearest count,
 * what the voltage asks for, and in a clipped step that, made shorter until the largest of the three is the period: docs/RULES.md, "Modulation".
 * All of it is a desk; a handler to start from is in interrupt.c. bin/library says how to compile and link it; bin/interrupt_example compares
 * what it writes with clipped.out. */
#include <stdio.h>

#include "mirgalhet.h"

/* The bench set, in the order of docs/RULES.md, "Settings". */
static const mirgalhet_settings bench = {600, 8192, 64, 128, 4096, 256, 256, 4096, 3277, 75, 310, 164, 64, 2458, 41};

static mirgalhet_drive drive; // zeroed, and so broken until it is started

/* Of a less b, b less c, a less c: what the on-times give, in counts, and what they should, which is T * asked / whole. */
struct differences {
    int64_t given[3], asked[3], whole;
};

static int64_t larger(int64_t x, int64_t y) { return x < y ? y : x; }
static int64_t size(int64_t x) { return larger(x, -x); }

static struct differences between_phases(mirgalhet_output o)
{
    int64_t a = 3547 * (int64_t)o.alpha, b = 2048 * (int64_t)o.beta;
    struct differences d = {{o.b - o.a, o.c - o.b, o.c - o.a}, {a - b, 2 * b, a + b}, 1 << 24};

    if (o.clipped) // the largest gets the whole period
        d.whole = larger(size(a - b), larger(size(2 * b), size(a + b)));
    return d;
}

/* How far the furthest of the three is from what it should be, in thousandths of a count. */
static int64_t thousandths_away(struct differences d)
{
    int64_t most = 0;

    for (int i = 0; i < 3; i++)
        most = larger(most, 1000 * size(d.given[i] * d.whole - bench.t * d.asked[i]) / d.whole);
    return most;
}

static void print_step(int32_t k, mirgalhet_output o, struct differences d)
{
    static const char *const names[] = {"a-b", "b-c", "a-c"};

    printf("step %d: voltage %d %d clipped %d, on-times %d %d %d", (int)k, (int)o.alpha, (int)o.beta, (int)o.clipped,
           (int)(bench.t - o.a), (int)(bench.t - o.b), (int)(bench.t - o.c));
    for (int i = 0; i < 3; i++) {
        int64_t n = 2 * bench.t * d.asked[i] + d.whole, w = 2 * d.whole; // n / w down, also below 0, is the nearest
        printf(", %s %d (%d)", names[i], (int)d.given[i], (int)(n / w - (n % w < 0)));
    }
    printf("\n");
}

/* The steps that are printed: three unclipped ones, the last of which is the last before any is clipped; the next; and one in each sector. A 0
 * is the end, since no step has that number. */
static const int32_t told[] = {1, 100, 174, 175, 600, 1200, 1500, 1700, 1900, 2000, 0};

int main(void)
{
    int32_t refused = 0, clipped = 0, turned = 0, next = 0;
    int64_t furthest = 0;

    printf("start %d\n", (int)mirgalhet_start(&drive, bench));
    printf("target %d\n", (int)mirgalhet_target(&drive, 4096));
    for (int32_t k = 1; k <= 3000; k++) {
        mirgalhet_output o = mirgalhet_step(&drive, 100, -50, k * k / 16 % 65536); // the shaft gains speed, but less than the ramp
        struct differences d = between_phases(o);

        refused += o.number != MIRGALHET_ACCEPTED;
        if (k == told[next]) {
            print_step(k, o, d);
            next++;
        }
        if (o.clipped) {
            clipped++;
            turned += thousandths_away(d) >= 2000;
            furthest = larger(furthest, thousandths_away(d));
        }
    }
    printf("refused %d, clipped %d, of these with a difference 2 counts away or more %d\n", (int)refused, (int)clipped, (int)turned);
    printf("furthest away: %d thousandths of a count\n", (int)furthest);
    return 0;
}
