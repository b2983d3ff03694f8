/* Mirgalhet: a vector drive for three-phase induction motors, on a record that lies where you have it.
 *
 * The rules are docs/RULES.md: every range, every rounding, every number handed back. The functions are proved: what each does is said once,
 * as an equation for every record and every number, in crates/drive/specs, crates/field/specs, crates/interrupt/specs,
 * crates/moments/specs and crates/sheet/specs. This header has the same in words.
 *
 * Link with libmirgalhet.a, which `bin/library DIR` puts beside this header, for x86-64. It allocates nothing and keeps nothing between
 * calls: all there is of a drive is its record, and the one of its last moments where you keep that. Two drives are two records.
 * From outside it needs memcpy and memset, for mirgalhet_recorded_start, mirgalhet_recorded_clear and mirgalhet_write_sheet, and nothing else.
 *
 * An interrupt, once a period; `station` stands for your registers:
 *
 *     static mirgalhet_drive drive;    // zeroed, and so broken until it is started
 *     static volatile int32_t refused; // the number that took the gates away, or 0
 *
 *     void pulse_interrupt(void)
 *     {
 *         mirgalhet_output o = mirgalhet_step(&drive, station.ia, station.ib, station.count);
 *
 *         if (o.number == MIRGALHET_ACCEPTED) {
 *             station.a = o.a;
 *             station.b = o.b;
 *             station.c = o.c;
 *             station.gates = true;
 *         } else {
 *             station.gates = false;
 *             if (refused == MIRGALHET_ACCEPTED)
 *                 refused = o.number;
 *         }
 *     }
 *
 * It is the one of examples/interrupt.c, which has the calls of the main line too, and a small station around it to run. examples/interrupt.rs
 * is the same in Rust: the structs `#[repr(C)]` with their words in this order, the functions `extern "C"` on `&mut` of the record.
 *
 * To see after a trip what led to it, keep a record of the last moments beside the drive's: `static mirgalhet_moments moments;`, or set to
 * {0}, in C++ to {}, which is empty. Then start, step and clear by the recorded calls, which do the same to the drive; a target is set as
 * ever. Each accepted step stores a row, and the last 128 can be read. Once a step was refused, every later one is, until you clear or
 * start the drive, and a refused step stores nothing. So after a trip the rows stay as they are: the main line can read them while the
 * interrupt goes on, and clear when it has them. examples/moments.c does that.
 *
 * Settings can stand in a sheet, fifteen lines of text such as `sKp=1.25`, in flash or on a card: mirgalhet_read_sheet gives them, or names the
 * first line that is wrong, and mirgalhet_write_sheet writes such a sheet. examples/sheets.c does that. They are for the main line.
 *
 * What you must do, since the drive cannot:
 *   - Disable the gates on any number but 0 that a step hands back. The compares that come with it are no substitute: T, T, T, with 6 and 7,
 *     turn every upper switch off and so, in a bridge with complementary switches, every lower one on; 0, 0, 0, with 14, turn every
 *     upper one on. Either way the motor's terminals are joined, which is not the same as off.
 *   - Have an output on while the pulse counter stands at or above its compare, so that a phase is on for T - compare of the T counts: at
 *     compare T never, at compare 0 always. Where your pulse unit has its outputs on below the compare, write T - compare in its place.
 *     Left as it is, each phase would be off for as long as it should be on: the voltage would be inverted, and the regulators would drive
 *     the currents away from their references.
 *   - Scale the samples, and see to dead time.
 *
 * What you owe, since no function can test it:
 *   - d points to a record, and nothing else reads or writes it during a call. A call made in an interrupt must not come in the middle of
 *     another on the same record: the main line keeps the interrupt out while it starts, clears or sets a target.
 *   - m points to a record of the last moments, and the same holds of it. The main line keeps the interrupt out while it reads rows too, from
 *     the first to the last where they are to fit together: each accepted step moves them on. After a trip none does, and it need not.
 *   - text points to length bytes, out to room bytes, neither of them null even where that is 0, and nothing else writes those bytes during
 *     the call.
 *   - A flag (seen, tripped) is true or false. Before the first mirgalhet_start make a record with `mirgalhet_drive d = {0};` in C, with
 *     `mirgalhet_drive d = {};` in C++, or have it static: flags that were never written may be neither.
 * Nothing else is owed: every 32-bit number is allowed in every word of either record, in every sample, in every target, in every setting
 * and as the index of a row, and every byte in a text.
 *
 * Units, as in docs/RULES.md, "Numbers and units":
 *   gains     4096 is 1.0
 *   current   4096 is the base current, which the scaling of the samples chooses
 *   flux      as a current: the d current that keeps that flux up
 *   fine      4096 of it are one count of the flux
 *   speed     4096 is the base speed: without slip the rotor flux then turns fb times a second
 *   voltage   4096 is the bus voltage divided by the square root of 3
 *   angle     65536 is one turn of the rotor flux
 *   count     counts of the encoder, in a counter of 16 bits
 *   compare   counts of the pulse counter
 * A step is one round of control, Ts seconds long; every thirtieth accepted one is a tick. */
#ifndef MIRGALHET_H
#define MIRGALHET_H

#include <stddef.h>
#include <stdint.h>
#ifndef __cplusplus
#include <stdbool.h>
#endif

#ifdef __cplusplus
extern "C" {
#endif

/* The numbers of docs/RULES.md, "Numbers handed back". 9 is a run's, which has no function here; 11 to 13 are free. */
enum mirgalhet_number {
    MIRGALHET_ACCEPTED = 0,
    MIRGALHET_PERIOD = 1,       /* start, read, write: T out of range */
    MIRGALHET_GAINS = 2,        /* start, read, write: a Kp, Kcor or Ki out of range */
    MIRGALHET_GAINS_UNTIED = 3, /* start, read, write: either gain set breaks 4096 Ki = Kp Kcor */
    MIRGALHET_LIMITS = 4,       /* start, read, write: V or Q out of range */
    MIRGALHET_MOTOR = 5,        /* start, read, write: Kr, Kt, Kth, Kn, F or R out of range */
    MIRGALHET_SAMPLE = 6,       /* step: ia, ib or ia + ib outside +-8191, or count outside 0..65535 */
    MIRGALHET_TRIPPED = 7,      /* step, target: the drive is tripped */
    MIRGALHET_TARGET = 8,       /* target: outside +-8191 */
    MIRGALHET_RUN = 9,          /* a run: samples not in threes, or output too short */
    MIRGALHET_NOT_TRIPPED = 10, /* clear: the drive is not tripped */
    MIRGALHET_BROKEN = 14,      /* step, target, clear: the record is broken */
    MIRGALHET_NO_SHEET = 17,    /* read: the text is no sheet */
    MIRGALHET_SHORT_ROOM = 18,  /* write: the sheet is longer than the room */
    MIRGALHET_NO_ROW = 19       /* row: there is no such row */
};

/* In the order of docs/RULES.md, "Settings". Tr is the rotor's time constant in seconds, C the counts of the encoder in thirty steps at base
 * speed; what is worked out from them is rounded to the nearest whole number. */
typedef struct mirgalhet_settings {
    int32_t t;     /* T, period, in counts of the pulse counter: 100..4000 */
    int32_t skp;   /* speed regulator, once a tick: gain Kp 1..32767 */
    int32_t skcor; /* Kcor, how far its integral goes towards the output each time, 4096 being all the way: 0..4096 */
    int32_t ski;   /* Ki, its gain of the integral: 0..32767, with 4096 Ki = Kp Kcor */
    int32_t ckp;   /* d and q regulator, which share them, once a step: Kp, as above */
    int32_t ckcor; /* Kcor */
    int32_t cki;   /* Ki */
    int32_t v;     /* V, limit of the voltages vd and vq, either way: 1..4096 */
    int32_t q;     /* Q, limit of the torque reference, a current, either way: 1..8191 */
    int32_t kr;    /* Kr, how fast the flux follows, 4096*Ts/Tr: 1..4096 */
    int32_t kt;    /* Kt, slip for a q current at flux 1.0, 4096/(2*pi*fb*Tr): 0..32767 */
    int32_t kth;   /* Kth, angle in a step at base speed, 65536*fb*Ts: 0..8191 */
    int32_t kn;    /* Kn, speed for counts, 4096*256/C: 1..4096 */
    int32_t f;     /* F, flux up to base speed: 410..8191 */
    int32_t r;     /* R, ramp, how far the speed reference moves in a tick: 1..8191 */
} mirgalhet_settings;

typedef struct mirgalhet_shaft {
    int32_t count; /* the last count, 0..65535 */
    bool seen;     /* whether there was one */
    int32_t sum;   /* the movements of the window, in counts, within +-32768 times its steps */
    int32_t steps; /* the steps of the window, 0..29 */
    int32_t speed; /* as last measured, within +-16383 */
} mirgalhet_shaft;

typedef struct mirgalhet_command {
    int32_t target;    /* where the speed reference goes, within +-8191 */
    int32_t reference; /* of the speed, within +-8191 */
    int32_t torque;    /* torque reference, of the q current, within +-Q */
    int32_t flux;      /* flux reference, of the d current, 0..F */
} mirgalhet_command;

typedef struct mirgalhet_field {
    int32_t fine;  /* the rotor's flux with twelve more bits, by the flux model, within +-81920000: mirgalhet_flux gives the flux */
    int32_t angle; /* of the rotor flux, 0..65535 */
} mirgalhet_field;

typedef struct mirgalhet_integrals {
    int32_t speed; /* of the speed regulator, within +-Q */
    int32_t d;     /* of the d regulator, within +-V */
    int32_t q;     /* of the q regulator, within +-V */
} mirgalhet_integrals;

/* The record: docs/RULES.md, "The drive record". Read what you like of it between two calls. A record with a word outside its range, or with
 * settings that would be refused, is broken; a zeroed one is. No call makes a broken record of one that is not. */
typedef struct mirgalhet_drive {
    mirgalhet_settings settings;
    mirgalhet_shaft shaft;
    mirgalhet_command command;
    mirgalhet_field field;
    mirgalhet_integrals integrals;
    bool tripped;
} mirgalhet_drive;

/* What a step answers. A phase is on for T - compare of the T counts. */
typedef struct mirgalhet_output {
    int32_t a; /* the compares of the three phases, 0..T */
    int32_t b;
    int32_t c;
    int32_t number; /* on any but 0 disable the gates */
    bool clipped;   /* whether the voltage was more than the period holds; it is shortened then, not turned (docs/RULES.md, "Modulation") */
    int32_t alpha;  /* the voltage that was modulated, before clipping */
    int32_t beta;
} mirgalhet_output;

/* The record of the last moments: docs/RULES.md, "The last moments". A row for each of the last 128 accepted recorded steps, in six rings
 * that have its words at the same place. mirgalhet_recorded_row knows where the oldest stands. */
typedef struct mirgalhet_moments {
    int32_t ia[128];    /* the phase currents, as they were sampled */
    int32_t ib[128];
    int32_t speed[128]; /* after the step */
    int32_t a[128];     /* the compares of the three phases */
    int32_t b[128];
    int32_t c[128];
    int32_t next; /* the place of the next row, 0..127 */
    int32_t real; /* how many rows are real, 0..128; where next or real is out of range, none is */
} mirgalhet_moments;

/* A row of it, as it is read. */
typedef struct mirgalhet_row {
    int32_t number; /* 0, or 19 where there is no such row */
    int32_t ia;     /* the phase currents, as they were sampled */
    int32_t ib;
    int32_t speed; /* after the step */
    int32_t a;     /* the compares of the three phases */
    int32_t b;
    int32_t c;
} mirgalhet_row;

/* Room for the sheet of any settings that are not refused. */
#define MIRGALHET_SHEET_ROOM 187

/* What reading a sheet answers. */
typedef struct mirgalhet_reading {
    int32_t number;
    int32_t line;                /* with 17 the first faulty line, 1..16, otherwise 0 */
    mirgalhet_settings settings; /* with 0 those of the sheet, otherwise zeros */
} mirgalhet_reading;

/* What writing one answers. */
typedef struct mirgalhet_writing {
    int32_t number;
    int32_t length; /* with 0 the bytes of the sheet, otherwise 0 */
} mirgalhet_writing;

/* A fresh drive with these settings in the place of *d. The lowest number that applies is given.
 *   0        *d is the fresh drive of these settings: not tripped, every other word 0 but the flux reference, which is F.
 *   1 to 5   the settings are refused; *d is as it was.
 * What *d was plays no part in the number, so a broken or a tripped drive can be replaced too. */
int32_t mirgalhet_start(mirgalhet_drive *d, mirgalhet_settings settings);

/* One step, for the phase currents ia and ib and the encoder's count: call it once a period. docs/RULES.md, "One accepted step, in order".
 *   0        the step is taken: *d is the drive after it.
 *   14       the record is broken: compares 0, 0, 0; *d is as it was. Comes before 7.
 *   7        the drive is tripped: compares T, T, T; *d is as it was. Comes before 6.
 *   6        the sample is refused: compares T, T, T; *d is as it was but marked tripped.
 * With 6, 7 and 14 nothing is clipped and the voltage is 0, 0; disable the gates. */
mirgalhet_output mirgalhet_step(mirgalhet_drive *d, int32_t ia, int32_t ib, int32_t count);

/* A new target for the speed. The reference moves to it by R every tick, which is every 30th accepted step.
 *   0        the target is replaced, and nothing else.
 *   14       the record is broken. Comes before 7.
 *   7        the drive is tripped. Comes before 8.
 *   8        wanted is outside +-8191.
 * With 7, 8 and 14 *d is as it was. */
int32_t mirgalhet_target(mirgalhet_drive *d, int32_t wanted);

/* After a trip.
 *   0        *d is the fresh drive of the same settings.
 *   14       the record is broken; *d is as it was. Comes before 10.
 *   10       the drive is not tripped; *d is as it was. */
int32_t mirgalhet_clear(mirgalhet_drive *d);

/* The flux of the word fine of a record: fine/4096 rounded down, also below 0. Of a record that is not broken it is within +-20000. */
int32_t mirgalhet_flux(int32_t fine);

/* mirgalhet_start, and an empty record beside the drive.
 *   0        *d is the fresh drive of these settings, every word of *m is 0.
 *   1 to 5   the settings are refused; *d and *m are as they were. */
int32_t mirgalhet_recorded_start(mirgalhet_drive *d, mirgalhet_moments *m, mirgalhet_settings settings);

/* mirgalhet_step, with the same answer and the same *d afterwards, and its row stored.
 *   0        *m has the row of this step as its newest. Where it had 128 the oldest is gone; where next or real was out of range this row
 *            is the only one.
 *   6, 7, 14 the step is refused; *m is as it was. Disable the gates. */
mirgalhet_output mirgalhet_recorded_step(mirgalhet_drive *d, mirgalhet_moments *m, int32_t ia, int32_t ib, int32_t count);

/* mirgalhet_clear, and an empty record beside the drive: read the rows before.
 *   0        *d is the fresh drive of the same settings, every word of *m is 0.
 *   10, 14   the clear is refused; *d and *m are as they were. */
int32_t mirgalhet_recorded_clear(mirgalhet_drive *d, mirgalhet_moments *m);

/* How many rows there are to read, 0..128; 0 where next or real is out of range. */
int32_t mirgalhet_recorded_count(const mirgalhet_moments *m);

/* Row i, oldest first: row 0 is the oldest, the newest is the one before the count. Its number is
 *   0        the row is there.
 *   19       there is no such row: i is below 0, or not below the count. The rest is 0. */
mirgalhet_row mirgalhet_recorded_row(const mirgalhet_moments *m, int32_t i);

/* Settings from a text of length bytes: docs/RULES.md, "The sheet". Its number is
 *   0        the text is a sheet, and settings are those that it has.
 *   17       the text is no sheet: line is the first that is not as it must be, from 1. A line that is missing, or has no line feed, is not;
 *            it is 16 where bytes follow the fifteenth, as the rest of a page of flash would. Comes before 1 to 5.
 *   1 to 5   the text is a sheet of settings that are refused; the lowest that applies.
 * With 1 to 5 and 17 all of settings is 0, which mirgalhet_start refuses with 1: a number that nobody looked at starts no drive. */
mirgalhet_reading mirgalhet_read_sheet(const uint8_t *text, size_t length);

/* The sheet of these settings, into room for so many bytes. Its number is
 *   0        the sheet stands in the first length bytes of out, with no zero byte behind it; the rest of out is as it was. It is read as
 *            these same settings.
 *   1 to 5   the settings are refused; the lowest that applies. Comes before 18.
 *   18       the sheet has more than room bytes. With a room of MIRGALHET_SHEET_ROOM that does not come.
 * With 1 to 5 and 18 all of out is as it was. */
mirgalhet_writing mirgalhet_write_sheet(mirgalhet_settings settings, uint8_t *out, size_t room);

/* The archive was compiled for this layout; a compiler that lays the structs out in another way cannot call it. */
#ifdef __cplusplus
#define MIRGALHET_HOLDS(claim) static_assert(claim, #claim)
#else
#define MIRGALHET_HOLDS(claim) _Static_assert(claim, #claim)
#endif
#define MIRGALHET_SIZE(type, size) MIRGALHET_HOLDS(sizeof(type) == (size))
#define MIRGALHET_AT(type, member, offset) MIRGALHET_HOLDS(offsetof(type, member) == (offset))

MIRGALHET_SIZE(bool, 1);
MIRGALHET_SIZE(mirgalhet_settings, 60);
MIRGALHET_AT(mirgalhet_settings, t, 0);
MIRGALHET_AT(mirgalhet_settings, skp, 4);
MIRGALHET_AT(mirgalhet_settings, skcor, 8);
MIRGALHET_AT(mirgalhet_settings, ski, 12);
MIRGALHET_AT(mirgalhet_settings, ckp, 16);
MIRGALHET_AT(mirgalhet_settings, ckcor, 20);
MIRGALHET_AT(mirgalhet_settings, cki, 24);
MIRGALHET_AT(mirgalhet_settings, v, 28);
MIRGALHET_AT(mirgalhet_settings, q, 32);
MIRGALHET_AT(mirgalhet_settings, kr, 36);
MIRGALHET_AT(mirgalhet_settings, kt, 40);
MIRGALHET_AT(mirgalhet_settings, kth, 44);
MIRGALHET_AT(mirgalhet_settings, kn, 48);
MIRGALHET_AT(mirgalhet_settings, f, 52);
MIRGALHET_AT(mirgalhet_settings, r, 56);
MIRGALHET_SIZE(mirgalhet_shaft, 20);
MIRGALHET_AT(mirgalhet_shaft, count, 0);
MIRGALHET_AT(mirgalhet_shaft, seen, 4);
MIRGALHET_AT(mirgalhet_shaft, sum, 8);
MIRGALHET_AT(mirgalhet_shaft, steps, 12);
MIRGALHET_AT(mirgalhet_shaft, speed, 16);
MIRGALHET_SIZE(mirgalhet_command, 16);
MIRGALHET_AT(mirgalhet_command, target, 0);
MIRGALHET_AT(mirgalhet_command, reference, 4);
MIRGALHET_AT(mirgalhet_command, torque, 8);
MIRGALHET_AT(mirgalhet_command, flux, 12);
MIRGALHET_SIZE(mirgalhet_field, 8);
MIRGALHET_AT(mirgalhet_field, fine, 0);
MIRGALHET_AT(mirgalhet_field, angle, 4);
MIRGALHET_SIZE(mirgalhet_integrals, 12);
MIRGALHET_AT(mirgalhet_integrals, speed, 0);
MIRGALHET_AT(mirgalhet_integrals, d, 4);
MIRGALHET_AT(mirgalhet_integrals, q, 8);
MIRGALHET_SIZE(mirgalhet_drive, 120);
MIRGALHET_AT(mirgalhet_drive, settings, 0);
MIRGALHET_AT(mirgalhet_drive, shaft, 60);
MIRGALHET_AT(mirgalhet_drive, command, 80);
MIRGALHET_AT(mirgalhet_drive, field, 96);
MIRGALHET_AT(mirgalhet_drive, integrals, 104);
MIRGALHET_AT(mirgalhet_drive, tripped, 116);
MIRGALHET_SIZE(mirgalhet_output, 28);
MIRGALHET_AT(mirgalhet_output, a, 0);
MIRGALHET_AT(mirgalhet_output, b, 4);
MIRGALHET_AT(mirgalhet_output, c, 8);
MIRGALHET_AT(mirgalhet_output, number, 12);
MIRGALHET_AT(mirgalhet_output, clipped, 16);
MIRGALHET_AT(mirgalhet_output, alpha, 20);
MIRGALHET_AT(mirgalhet_output, beta, 24);
MIRGALHET_SIZE(mirgalhet_moments, 3080);
MIRGALHET_AT(mirgalhet_moments, ia, 0);
MIRGALHET_AT(mirgalhet_moments, ib, 512);
MIRGALHET_AT(mirgalhet_moments, speed, 1024);
MIRGALHET_AT(mirgalhet_moments, a, 1536);
MIRGALHET_AT(mirgalhet_moments, b, 2048);
MIRGALHET_AT(mirgalhet_moments, c, 2560);
MIRGALHET_AT(mirgalhet_moments, next, 3072);
MIRGALHET_AT(mirgalhet_moments, real, 3076);
MIRGALHET_SIZE(mirgalhet_row, 28);
MIRGALHET_AT(mirgalhet_row, number, 0);
MIRGALHET_AT(mirgalhet_row, ia, 4);
MIRGALHET_AT(mirgalhet_row, ib, 8);
MIRGALHET_AT(mirgalhet_row, speed, 12);
MIRGALHET_AT(mirgalhet_row, a, 16);
MIRGALHET_AT(mirgalhet_row, b, 20);
MIRGALHET_AT(mirgalhet_row, c, 24);
MIRGALHET_SIZE(mirgalhet_reading, 68);
MIRGALHET_AT(mirgalhet_reading, number, 0);
MIRGALHET_AT(mirgalhet_reading, line, 4);
MIRGALHET_AT(mirgalhet_reading, settings, 8);
MIRGALHET_SIZE(mirgalhet_writing, 8);
MIRGALHET_AT(mirgalhet_writing, number, 0);
MIRGALHET_AT(mirgalhet_writing, length, 4);

#undef MIRGALHET_AT
#undef MIRGALHET_SIZE
#undef MIRGALHET_HOLDS

#ifdef __cplusplus
}
#endif

#endif
