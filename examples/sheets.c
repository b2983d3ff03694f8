/* Settings as a sheet of text, so that a workshop can read, keep and change them. A drive is started from a sheet; one with a comma in it is
 * refused, the line is named, and the settings that come back start no drive; settings are written, into room enough and into room that is
 * too short. bin/library says how to compile and link it; bin/interrupt_example compares what it writes with sheets.out. */
#include <stdio.h>
#include <string.h>

#include "mirgalhet.h"

/* The bench set of docs/RULES.md but for its second line, in which the two sheets differ. */
#define SHEET(second) \
    "T=600\n" second "sKcor=0.015625\nsKi=0.03125\n" \
    "cKp=1\ncKcor=0.0625\ncKi=0.0625\n" \
    "V=4096\nQ=3277\n" \
    "Kr=75\nKt=310\nKth=164\nKn=64\nF=2458\nR=41\n"

static const char bench[] = SHEET("sKp=2\n");
static const char comma[] = SHEET("sKp=1,250\n");

static mirgalhet_drive drive; // zeroed, and so broken until it is started

static mirgalhet_settings read_sheet(const char *text)
{
    mirgalhet_reading r = mirgalhet_read_sheet((const uint8_t *)text, strlen(text));

    printf("read %d, line %d\n", (int)r.number, (int)r.line);
    return r.settings;
}

/* The number of the read is not looked at here, though you should look: even so a refused sheet starts no drive, and one that runs goes on. */
static void start_and_step(mirgalhet_settings settings)
{
    printf("start %d\n", (int)mirgalhet_start(&drive, settings));
    mirgalhet_output o = mirgalhet_step(&drive, 0, 0, 0);
    printf("step %d, compares %d %d %d\n", (int)o.number, (int)o.a, (int)o.b, (int)o.c);
}

/* A sheet has no zero byte behind it: its length alone says where it ends. Gives that length. */
static int32_t write_sheet(mirgalhet_settings settings, size_t room)
{
    const uint8_t before[MIRGALHET_SHEET_ROOM] = {0};
    uint8_t out[MIRGALHET_SHEET_ROOM] = {0};
    mirgalhet_writing w = mirgalhet_write_sheet(settings, out, room);

    printf("write %d, length %d, %s\n", (int)w.number, (int)w.length,
           memcmp(before, out, sizeof out) == 0 ? "nothing written" : "this sheet:");
    fwrite(out, 1, (size_t)w.length, stdout);
    return w.length;
}

int main(void)
{
    mirgalhet_settings settings = read_sheet(bench);
    start_and_step(settings);
    start_and_step(read_sheet(comma));

    settings.q = 4096; // more torque than on the bench
    int32_t length = write_sheet(settings, MIRGALHET_SHEET_ROOM);
    write_sheet(settings, (size_t)length - 1); // one byte too short
    return 0;
}
