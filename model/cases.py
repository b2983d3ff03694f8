"""The cases that the program probe is held to, in named groups: what stands in crates/probe/stdin.

Each case is a call on the fresh drive of the bench set, with the changes that are spelled out; a changed setting changes the fresh drive too. So a new setting
or word finds its way into every line by itself. Run as a program this prints each group's name and the lines it has in that file.
"""

import sys

import drive
import probe

LOWEST_NUMBER = -2147483648
HIGHEST_NUMBER = 2147483647


# Calls

def changed(changes):
    """The fresh drive of the bench set with these changes, of settings and of words."""
    record = drive.fresh({**drive.BENCH, **changes})
    return {**record, **changes}


def make(**changes):
    return probe.Call('make', changed(changes), ())


def step(sample=(0, 0, 0), **changes):
    return probe.Call('step', changed(changes), sample)


def target(wanted, **changes):
    return probe.Call('target', changed(changes), (wanted,))


def clear(**changes):
    return probe.Call('clear', changed(changes), ())


# What is regular

def around(lowest, highest):
    """Both ends of a range, and one past each."""
    return [lowest - 1, lowest, highest, highest + 1]


def around_setting(name):
    for setting in drive.SETTINGS:
        if setting.name == name:
            return around(setting.lowest, setting.highest)
    raise KeyError(name)


def around_word(name, **changes):
    return around(*drive.word_ranges(changed(changes))[name])


def settings_refused_with(number):
    """Each setting that is refused with this number, at the ends of its range."""
    return [make(**{setting.name: value})
            for setting in drive.SETTINGS if setting.number == number for value in around(setting.lowest, setting.highest)]


def gain_sets(regulator):
    """Each gain at the ends of its range, the others such that the gain law holds wherever it can."""
    sets = [(kp, 0, 0) for kp in around_setting(regulator + '_Kp')]
    sets += [(1, kcor, 1 if kcor == 4096 else 0) for kcor in around_setting(regulator + '_Kcor')]
    sets += [(32767, 4096 if ki > 0 else 0, ki) for ki in around_setting(regulator + '_Ki')]
    return [make(**{regulator + '_Kp': kp, regulator + '_Kcor': kcor, regulator + '_Ki': ki}) for kp, kcor, ki in sets]


def words_at_ends():
    """Each word at the ends of its range; those whose range depends on something else at more than one value of that."""
    tried = [('count', {}), ('steps', {}), ('sum', {'steps': 0}), ('sum', {'steps': 1}), ('sum', {'steps': 29})]
    tried += [(name, {}) for name in drive.WORDS[drive.WORDS.index('steps') + 1:] if name not in drive.FLAGS]
    tried += [('torque', {'Q': 1}), ('d_integral', {'V': 1})]
    return [clear(**changes, **{name: value}) for name, changes in tried for value in around_word(name, **changes)]


def wild_words():
    """Words and settings so far out that a range computed in 32 bits could seem to hold them."""
    return [clear(**changes) for wild in (LOWEST_NUMBER, HIGHEST_NUMBER)
            for changes in ({'sum': wild, 'steps': wild}, {'Q': wild}, {'V': wild}, {'F': wild}, {'sum': wild, 'steps': 29})]


def lines():
    """Lines instead of calls: leading zeros and a long zero with a minus, then a flag that is neither, then a line that is not looked at."""
    zeros = ['000%d' % number for _, number in probe.named_numbers(clear())]
    zeros[1 + len(drive.SETTINGS) + drive.WORDS.index('count')] = '-' + 31 * '0'
    return [' '.join(zeros), step(seen=2), '0']


# What is spelled out

LOWEST_OF_SEVERAL_NUMBERS = [
    make(T=0, speed_Kp=0, V=0, Kr=0),
    make(speed_Kp=0, speed_Ki=1, V=0, Kr=0),
    make(speed_Ki=1, V=0, Kr=0),
    make(V=0, Kr=0),
    make(Kr=0),
    make(T=LOWEST_NUMBER, speed_Kp=HIGHEST_NUMBER, speed_Kcor=LOWEST_NUMBER, R=HIGHEST_NUMBER),
]

GAIN_LAW = [
    make(current_Kp=16384, current_Kcor=512, current_Ki=512),
    make(current_Kp=16384, current_Kcor=512, current_Ki=2048),
    make(speed_Ki=127),
    make(speed_Ki=129),
]

SAMPLES = [step(sample=sample) for sample in [
    (0, 0, 0),
    (8191, 0, 0), (8192, 0, 0), (-8191, 0, 0), (-8192, 0, 0),
    (0, 8191, 0), (0, 8192, 0), (0, -8191, 0), (0, -8192, 0),
    (4096, 4095, 0), (4096, 4096, 0), (-4096, -4095, 0), (-4096, -4096, 0), (8191, -8191, 0),
    (0, 0, -1), (0, 0, 65535), (0, 0, 65536),
    # sums that 32 bits do not hold
    (HIGHEST_NUMBER, HIGHEST_NUMBER, 0), (LOWEST_NUMBER, LOWEST_NUMBER, 0), (0, 0, LOWEST_NUMBER),
]]

# Where several numbers apply: 14, then 7, then 6.
STEP_ORDER = [
    step(tripped=True, sample=(9000, 0, 0)),
    step(tripped=True),
    step(angle=65536, sample=(9000, 0, 0)),
    step(angle=65536, tripped=True),
    step(T=99),
]

# Over the end of the counter both ways, and half a turn of it.
MOVEMENT = [
    step(count=65535, seen=True, steps=1, sample=(0, 0, 0)),
    step(count=0, seen=True, steps=1, sample=(0, 0, 65535)),
    step(count=0, seen=True, steps=1, sample=(0, 0, 32767)),
    step(count=0, seen=True, steps=1, sample=(0, 0, 32768)),
]

# Ticks with speeds 4096, 4097 and 8192, both ways.
WEAKENING = [step(sum=total, steps=29, sample=(0, 0, 7)) for total in (16384, 16388, 32768, -16384, -16388, -32768)]

# Ticks of a drive at rest, with the target more than R away, R away, less; then downwards; and a step that is no tick.
RAMP = [
    step(count=40, seen=True, sum=-60, steps=29, target=100, sample=(0, 0, 100)),
    step(count=40, seen=True, sum=-60, steps=29, target=41, sample=(0, 0, 100)),
    step(count=40, seen=True, sum=-60, steps=29, target=40, sample=(0, 0, 100)),
    step(count=40, seen=True, sum=-60, steps=29, target=-100, reference=-90, sample=(0, 0, 100)),
    step(count=40, seen=True, sum=-60, steps=28, target=100, sample=(0, 0, 100)),
]

# Speeds that are held, and a speed regulator that is clipped.
SPEED = [
    step(sum=950272, steps=29),
    step(sum=-950272, steps=29),
    step(steps=29, target=8191, reference=8191),
]

# At flux 40 and at 41; then from 40 to 41 and back in one step, since it is the new flux that counts.
SLIP = [
    step(fine=4096 * 40, sample=(40, 500, 0)),
    step(fine=4096 * 41, sample=(41, 500, 0)),
    step(fine=4096 * 41 - 1, sample=(42, 500, 0)),
    step(fine=4096 * 41, sample=(40, 500, 0)),
]

# From 2404, one step and the next; at rest below d, at it, and 1 above; and products that 32 bits do not hold.
FLUX = [step(fine=fine, sample=(2458, 0, 0)) for fine in (4096 * 2404, 9850834, 10067913, 10067914, 4096 * 2458, 4096 * 2458 + 1)]
FLUX += [step(fine=fine, Kr=4096, sample=(ia, 0, 0)) for fine, ia in ((-81920000, 8191), (81920000, -8191))]

# At angle 0 and no error the integrals are vα and vβ: the cases of the rules; times of 160 + 440, just the period, and of 160 + 441, clipped; clipped in three
# more sectors, where a count of the period is left over; and where none is, since 234 + 468 become 200 + 400.
MODULATION = [step(flux_reference=0, d_integral=valpha, q_integral=vbeta)
              for valpha, vbeta in [(4096, 4096), (2048, 2048), (4096, 0), (0, 4096), (0, 0), (3000, 3010), (3000, 3011),
                                    (-4096, 4096), (-4096, -4096), (4096, -4096), (3700, 3200)]]

# After an eighth of a turn one of vα and vβ can be beyond 4096: clipped in the two sectors that are left, and with a t2 of 0 and a t1 of 0.
MODULATION += [step(flux_reference=0, angle=8192, d_integral=vd, q_integral=vq)
               for vd, vq in [(4096, 3000), (-4096, -3000), (4096, -4096), (-4096, 4096)]]

# The greatest voltage in the longest period.
MODULATION += [step(T=4000, flux_reference=0, d_integral=4096, q_integral=4096)]

REGULATORS = [
    step(d_integral=4096, q_integral=-4096, sample=(-8191, 4095, 0)),
    step(d_integral=4096, sample=(8191, -4096, 0)),
    step(d_integral=-4096, sample=(8191, -4096, 0)),
]

SINE = [step(speed=1000, fine=4096000, angle=angle, sample=(1000, -300, 0)) for angle in (0, 255, 256, 16384, 65535)]

# Where the table is folded, at 64, 128 and 192: the last angle of the index before, the first of that index, the first of the next; and the first of index 255.
# Here d is the cosine and q is minus the sine, and the answer shows both as they are: fine is 4096 times the cosine, the q integral is the sine.
SINE += [step(current_Kcor=4096, current_Ki=4096, Kr=4096, angle=angle, sample=(4096, -2048, 0))
         for angle in (16383, 16384, 16640, 32767, 32768, 33024, 49151, 49152, 49408, 65280)]

# Backwards over 0.
ANGLE = [step(speed=-25)]

TARGETS = [target(8191), target(8192), target(-8191), target(-8192), target(0, target=5)]

# Where several numbers apply: 14, then 7, then 8.
TARGET_ORDER = [
    target(100, tripped=True),
    target(9000, tripped=True),
    target(9000, angle=-1, tripped=True),
    target(HIGHEST_NUMBER),
    target(LOWEST_NUMBER),
]

CLEAR = [
    clear(count=9, seen=True, sum=2, steps=3, target=1, fine=5, angle=77, tripped=True),
    clear(),
    clear(angle=-1, tripped=True),
]


def groups():
    """Each group's name and its cases, in the order of the file; a case is a call or, in the last group, a line."""
    return [
        ('made', [make()]),
        ('period', settings_refused_with(1)),
        ('gains', gain_sets('speed') + gain_sets('current')),
        ('gain-law', GAIN_LAW),
        ('limits', settings_refused_with(4)),
        ('motor', settings_refused_with(5)),
        ('lowest-number', LOWEST_OF_SEVERAL_NUMBERS),
        ('samples', SAMPLES),
        ('step-order', STEP_ORDER),
        ('movement', MOVEMENT),
        ('weakening', WEAKENING),
        ('ramp', RAMP),
        ('speed', SPEED),
        ('slip', SLIP),
        ('flux', FLUX),
        ('modulation', MODULATION),
        ('regulators', REGULATORS),
        ('sine', SINE),
        ('angle', ANGLE),
        ('targets', TARGETS),
        ('target-order', TARGET_ORDER),
        ('clear', CLEAR),
        ('ranges', words_at_ends()),
        ('wild', wild_words()),
        ('lines', lines()),
    ]


def text():
    """The bytes of crates/probe/stdin."""
    written = [case if isinstance(case, str) else probe.line_of(case) for _, cases in groups() for case in cases]
    return ''.join(line + '\n' for line in written).encode()


def listing():
    """Each group's name and its lines in the file."""
    listed, first = [], 1
    for name, cases in groups():
        last = first + len(cases) - 1
        listed.append('%s %d' % (name, first) if first == last else '%s %d-%d' % (name, first, last))
        first = last + 1
    return '\n'.join(listed)


def main(arguments):
    if arguments:
        print('usage: python3 model/cases.py', file=sys.stderr)
        return 2
    print(listing())
    return 0


if __name__ == '__main__':
    sys.exit(main(sys.argv[1:]))
