/* Calls on a drive record and a record of the last moments in place, one after the other, as standard input has them: a line of numbers each,
 * the call's own first, and a line of numbers for each answer. model/compare --recorded writes the calls and compares the answers;
 * model/README.md has the format. Words are put and shown by their names in the header, so that an archive with another layout shows.
 *
 * Ends with status 1 where a call wrote beside the records, or where the input is not such numbers. */
#include <inttypes.h>
#include <stdio.h>
#include <stdlib.h>

#include "mirgalhet.h"

enum { PLACES = 128, RINGS = 6, MARGIN = 64, MARK = 0x5a5a5a5a };

/* The records, and around them words that no call may write. */
static struct {
    int32_t before[MARGIN];
    mirgalhet_drive drive;
    int32_t between[MARGIN];
    mirgalhet_moments moments;
    int32_t behind[MARGIN];
} lies;

static mirgalhet_drive *const d = &lies.drive;
static mirgalhet_moments *const m = &lies.moments;
static int32_t *const rings[RINGS] = {
    lies.moments.ia, lies.moments.ib, lies.moments.speed, lies.moments.a, lies.moments.b, lies.moments.c,
};

static void fails(const char *words)
{
    fprintf(stderr, "recorded: %s\n", words);
    exit(1);
}

static void mark(void)
{
    for (int k = 0; k < MARGIN; k++)
        lies.before[k] = lies.between[k] = lies.behind[k] = MARK;
}

static void look_around(void)
{
    for (int k = 0; k < MARGIN; k++)
        if (lies.before[k] != MARK || lies.between[k] != MARK || lies.behind[k] != MARK)
            fails("a call wrote beside the records");
}

static int32_t number(void)
{
    int32_t n = 0;

    if (scanf("%" SCNd32, &n) != 1)
        fails("a number is missing");
    return n;
}

static const char *gap = ""; /* what comes before the next number of a line */

static void say(int32_t n)
{
    printf("%s%" PRId32, gap, n);
    gap = " ";
}

static void end_line(void)
{
    printf("\n");
    gap = "";
}

static mirgalhet_settings settings(void)
{
    mirgalhet_settings s;

    s.t = number();
    s.skp = number();
    s.skcor = number();
    s.ski = number();
    s.ckp = number();
    s.ckcor = number();
    s.cki = number();
    s.v = number();
    s.q = number();
    s.kr = number();
    s.kt = number();
    s.kth = number();
    s.kn = number();
    s.f = number();
    s.r = number();
    return s;
}

static void put_drive(void)
{
    d->settings = settings();
    d->shaft.count = number();
    d->shaft.seen = number() == 1;
    d->shaft.sum = number();
    d->shaft.steps = number();
    d->shaft.speed = number();
    d->command.target = number();
    d->command.reference = number();
    d->command.torque = number();
    d->command.flux = number();
    d->field.fine = number();
    d->field.angle = number();
    d->integrals.speed = number();
    d->integrals.d = number();
    d->integrals.q = number();
    d->tripped = number() == 1;
}

static void put_counts(void)
{
    m->next = number();
    m->real = number();
}

static void put_moments(void)
{
    for (int r = 0; r < RINGS; r++)
        for (int k = 0; k < PLACES; k++)
            rings[r][k] = number();
    put_counts();
}

static void show_settings(const mirgalhet_settings *s)
{
    const int32_t words[] = {s->t, s->skp, s->skcor, s->ski, s->ckp, s->ckcor, s->cki, s->v, s->q, s->kr, s->kt, s->kth, s->kn, s->f, s->r};

    for (size_t k = 0; k < sizeof words / sizeof words[0]; k++)
        say(words[k]);
}

static void show_drive(void)
{
    const int32_t words[] = {
        d->shaft.count, d->shaft.seen, d->shaft.sum, d->shaft.steps, d->shaft.speed,
        d->command.target, d->command.reference, d->command.torque, d->command.flux, d->field.fine, d->field.angle,
        d->integrals.speed, d->integrals.d, d->integrals.q, d->tripped,
    };

    show_settings(&d->settings);
    for (size_t k = 0; k < sizeof words / sizeof words[0]; k++)
        say(words[k]);
}

static void show_moments(void)
{
    for (int r = 0; r < RINGS; r++)
        for (int k = 0; k < PLACES; k++)
            say(rings[r][k]);
    say(m->next);
    say(m->real);
}

static void step(bool recorded)
{
    const int32_t ia = number(), ib = number(), count = number();
    const mirgalhet_output o = recorded ? mirgalhet_recorded_step(d, m, ia, ib, count) : mirgalhet_step(d, ia, ib, count);
    const int32_t words[] = {o.number, o.a, o.b, o.c, o.clipped, o.alpha, o.beta};

    for (size_t k = 0; k < sizeof words / sizeof words[0]; k++)
        say(words[k]);
}

static void row(void)
{
    const mirgalhet_row r = mirgalhet_recorded_row(m, number());
    const int32_t words[] = {r.number, r.ia, r.ib, r.speed, r.a, r.b, r.c};

    for (size_t k = 0; k < sizeof words / sizeof words[0]; k++)
        say(words[k]);
}

/* One call, by its number. */
static void call(int32_t kind)
{
    switch (kind) {
    case 0: say(mirgalhet_recorded_start(d, m, settings())); break;
    case 1: step(true); break;
    case 2: say(mirgalhet_recorded_clear(d, m)); break;
    case 3: say(mirgalhet_recorded_count(m)); break;
    case 4: row(); break;
    case 5: say(mirgalhet_start(d, settings())); break;
    case 6: step(false); break;
    case 7: say(mirgalhet_clear(d)); break;
    case 8: say(mirgalhet_target(d, number())); break;
    case 9: put_drive(); break;
    case 10: put_moments(); break;
    case 11: put_counts(); break;
    case 12: show_drive(); show_moments(); break;
    default: fails("there is no such call");
    }
    look_around();
    end_line();
}

int main(void)
{
    int32_t kind;
    int found;

    mark();
    while ((found = scanf("%" SCNd32, &kind)) == 1)
        call(kind);
    if (found != EOF)
        fails("a line does not begin with a number");
    return 0;
}
