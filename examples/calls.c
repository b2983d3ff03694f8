/* Every call on records in place, with every number that it hands back: a test, and a place to look up what a call does. A handler to start
 * from is in interrupt.c. bin/interrupt_example compares what this writes with calls.out. */
#include <stdio.h>
#include <string.h>

#include "mirgalhet.h"

static mirgalhet_settings bench(void)
{
    mirgalhet_settings s = {
        .t = 600,
        .skp = 8192, .skcor = 64, .ski = 128,
        .ckp = 4096, .ckcor = 256, .cki = 256,
        .v = 4096, .q = 3277,
        .kr = 75, .kt = 310, .kth = 164,
        .kn = 64, .f = 2458, .r = 41,
    };
    return s;
}

/* No two words are the same, so that one that stood in another's place would show in what the drive does. */
static mirgalhet_settings distinct(void)
{
    mirgalhet_settings s = bench();
    s.t = 1000;
    s.ckp = 2048;
    s.ckcor = 512;
    s.v = 900;
    s.kn = 63;
    return s;
}

static mirgalhet_output row(mirgalhet_drive *d, int32_t ia, int32_t ib, int32_t count)
{
    mirgalhet_output o = mirgalhet_step(d, ia, ib, count);
    printf("%d %d %d %d\n", (int)o.a, (int)o.b, (int)o.c, (int)o.number);
    return o;
}

static void voltage(mirgalhet_output o)
{
    printf("voltage %d %d clipped %d\n", (int)o.alpha, (int)o.beta, (int)o.clipped);
}

/* Word by word: the bytes between the words say nothing. */
static bool same(const mirgalhet_drive *x, const mirgalhet_drive *y)
{
    return memcmp(&x->settings, &y->settings, sizeof x->settings) == 0
        && x->shaft.count == y->shaft.count && x->shaft.seen == y->shaft.seen && x->shaft.sum == y->shaft.sum
        && x->shaft.steps == y->shaft.steps && x->shaft.speed == y->shaft.speed
        && memcmp(&x->command, &y->command, sizeof x->command) == 0
        && memcmp(&x->field, &y->field, sizeof x->field) == 0
        && memcmp(&x->integrals, &y->integrals, sizeof x->integrals) == 0
        && x->tripped == y->tripped;
}

static void words(const mirgalhet_drive *d)
{
    printf("count %d seen %d sum %d steps %d speed %d\n",
           (int)d->shaft.count, (int)d->shaft.seen, (int)d->shaft.sum, (int)d->shaft.steps, (int)d->shaft.speed);
    printf("target %d reference %d torque %d flux %d\n",
           (int)d->command.target, (int)d->command.reference, (int)d->command.torque, (int)d->command.flux);
    printf("field fine %d flux %d angle %d\n", (int)d->field.fine, (int)mirgalhet_flux(d->field.fine), (int)d->field.angle);
    printf("integrals %d %d %d tripped %d\n",
           (int)d->integrals.speed, (int)d->integrals.d, (int)d->integrals.q, (int)d->tripped);
}

static const char *kept(bool yes)
{
    return yes ? "record as it was" : "record changed";
}

/* The three rows of docs/RULES.md, "The program run_rows": a step, a sample out of range, which trips, and a step of the tripped drive. */
static void rows(mirgalhet_drive *d)
{
    mirgalhet_drive before;

    voltage(row(d, 0, 0, 0));
    before = *d;
    row(d, 9000, 0, 0);
    printf("tripped %d\n", (int)d->tripped);
    d->tripped = false;
    printf("but for the mark: %s\n", kept(same(d, &before)));
    d->tripped = true;
    row(d, 0, 0, 0);
}

/* On a tripped drive: after a clear it runs again, and a target is taken. */
static void cleared(mirgalhet_drive *d)
{
    printf("target %d\n", (int)mirgalhet_target(d, 100));
    printf("clear %d\n", (int)mirgalhet_clear(d));
    printf("clear %d\n", (int)mirgalhet_clear(d));
    printf("target %d\n", (int)mirgalhet_target(d, 8192));
    printf("target %d\n", (int)mirgalhet_target(d, 100));
    printf("in the record %d\n", (int)d->command.target);
    row(d, 0, 0, 0);
}

/* Settings with one word wrong, for each number that refuses them. */
static void refused(mirgalhet_drive *d)
{
    const mirgalhet_drive before = *d;
    mirgalhet_settings wrong[5];

    for (int k = 0; k < 5; k++)
        wrong[k] = bench();
    wrong[0].t = 99;
    wrong[1].skp = 0;
    wrong[2].ski = 129;
    wrong[3].v = 0;
    wrong[4].f = 409;
    for (int k = 0; k < 5; k++) {
        int32_t number = mirgalhet_start(d, wrong[k]);
        printf("start %d, %s\n", (int)number, kept(same(d, &before)));
    }
}

/* A word out of its range: nothing is done with the record until accepted settings replace it. */
static void broken(mirgalhet_drive *d)
{
    d->field.angle = 65536;
    row(d, 0, 0, 0);
    printf("target %d\n", (int)mirgalhet_target(d, 100));
    printf("clear %d\n", (int)mirgalhet_clear(d));
    refused(d);
    printf("start %d\n", (int)mirgalhet_start(d, bench()));
    row(d, 0, 0, 0);
}

/* The flux of any word at all, which is rounded down below 0 too. */
static void fluxes(void)
{
    static const int32_t fines[] = {INT32_MIN, -81920000, -4097, -4096, -1, 0, 4095, 4096, 81920000, INT32_MAX};

    for (size_t k = 0; k < sizeof fines / sizeof fines[0]; k++)
        printf("fine %d flux %d\n", (int)fines[k], (int)mirgalhet_flux(fines[k]));
}

/* Past a tick, and every word of the record then. */
static void ticked(mirgalhet_drive *d)
{
    printf("start %d\n", (int)mirgalhet_start(d, distinct()));
    printf("target %d\n", (int)mirgalhet_target(d, 100));
    for (int32_t k = 0; k < 31; k++)
        mirgalhet_step(d, 1000, -300, 700 * k);
    voltage(row(d, 1000, -300, 700 * 31));
    words(d);
}

static void print_row(const mirgalhet_moments *m, int32_t i)
{
    mirgalhet_row r = mirgalhet_recorded_row(m, i);
    printf("row %d: %d, %d %d %d %d %d %d\n", (int)i, (int)r.number, (int)r.ia, (int)r.ib, (int)r.speed, (int)r.a, (int)r.b, (int)r.c);
}

/* A call that may change the record of the last moments: its number, and how many rows there are then. */
static void and_rows(const char *call, int32_t number, const mirgalhet_moments *m)
{
    printf("%s %d, rows %d\n", call, (int)number, (int)mirgalhet_recorded_count(m));
}

/* Counts out of range: there is no row, and an accepted step stores one that is the only one. */
static void wild(mirgalhet_drive *d, mirgalhet_moments *m)
{
    static const int32_t counts[4][2] = {{128, 1}, {-1, 1}, {0, 129}, {0, -1}};

    for (int k = 0; k < 4; k++) {
        m->next = counts[k][0];
        m->real = counts[k][1];
        print_row(m, 0);
        and_rows("refused step", mirgalhet_recorded_step(d, m, 9000, 0, 0).number, m);
        printf("next %d real %d\n", (int)m->next, (int)m->real);
        d->tripped = false;
        and_rows("step", mirgalhet_recorded_step(d, m, 5, 6, 7).number, m);
        printf("next %d real %d\n", (int)m->next, (int)m->real);
    }
}

/* The last moments. A row's ia is the number of its step, so that one sees which steps are kept. */
static void recorded(mirgalhet_drive *d)
{
    mirgalhet_moments m = {0};
    mirgalhet_settings wrong = bench();
    int32_t number = 0;

    wrong.t = 99;
    and_rows("recorded start", mirgalhet_recorded_start(d, &m, bench()), &m);
    for (int32_t k = 1; k <= 130; k++)
        number = mirgalhet_recorded_step(d, &m, k, -2 * k, 300 * k).number;
    and_rows("recorded step 130 times,", number, &m);
    print_row(&m, -1);
    print_row(&m, 0);
    print_row(&m, 127);
    print_row(&m, 128);
    and_rows("step without a record", mirgalhet_step(d, 0, 0, 0).number, &m);
    and_rows("recorded clear", mirgalhet_recorded_clear(d, &m), &m);
    and_rows("recorded start", mirgalhet_recorded_start(d, &m, wrong), &m);
    and_rows("recorded step", mirgalhet_recorded_step(d, &m, 9000, 0, 0).number, &m);
    and_rows("recorded step", mirgalhet_recorded_step(d, &m, 0, 0, 0).number, &m);
    print_row(&m, 127);
    and_rows("recorded clear", mirgalhet_recorded_clear(d, &m), &m);
    wild(d, &m);
    d->field.angle = 65536;
    and_rows("recorded step", mirgalhet_recorded_step(d, &m, 0, 0, 0).number, &m);
    and_rows("recorded clear", mirgalhet_recorded_clear(d, &m), &m);
    and_rows("recorded start", mirgalhet_recorded_start(d, &m, bench()), &m);
}

int main(void)
{
    mirgalhet_drive d = {0};

    /* a zeroed record is broken, until it is started */
    row(&d, 0, 0, 0);
    printf("start %d\n", (int)mirgalhet_start(&d, bench()));
    rows(&d);
    cleared(&d);
    broken(&d);
    fluxes();
    ticked(&d);
    recorded(&d);
    return 0;
}
