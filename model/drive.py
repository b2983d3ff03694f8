"""The vector drive, from docs/RULES.md alone.

The sections stand in the order of that page. A number is a whole number of any size, so nothing can overflow here, and Python's // rounds down as the page
means it. A record is a dict from name to value: the settings, and the words. No function changes a dict that it is given.

Every rule is a function of this module and is looked up by its name when it is called: whoever replaces one (drive.clarke = ...) replaces it for all.
"""

import math
import re
from collections import namedtuple

# Settings: name, range, bench set, and the number that refuses a value out of that range.
Setting = namedtuple('Setting', 'name lowest highest bench number')

SETTINGS = [
    Setting('T', 100, 4000, 600, 1),
    Setting('speed_Kp', 1, 32767, 8192, 2),
    Setting('speed_Kcor', 0, 4096, 64, 2),
    Setting('speed_Ki', 0, 32767, 128, 2),
    Setting('current_Kp', 1, 32767, 4096, 2),
    Setting('current_Kcor', 0, 4096, 256, 2),
    Setting('current_Ki', 0, 32767, 256, 2),
    Setting('V', 1, 4096, 4096, 4),
    Setting('Q', 1, 8191, 3277, 4),
    Setting('Kr', 1, 4096, 75, 5),
    Setting('Kt', 0, 32767, 310, 5),
    Setting('Kth', 0, 8191, 164, 5),
    Setting('Kn', 1, 4096, 64, 5),
    Setting('F', 410, 8191, 2458, 5),
    Setting('R', 1, 8191, 41, 5),
]

BENCH = {setting.name: setting.bench for setting in SETTINGS}

# The drive record: its words, in order. Their ranges are in word_ranges, since some depend on settings or on another word.
WORDS = [
    'count', 'seen', 'sum', 'steps', 'speed', 'target', 'reference', 'torque', 'flux_reference', 'fine', 'angle',
    'speed_integral', 'd_integral', 'q_integral', 'tripped',
]

FLAGS = ['seen', 'tripped']

# What the calls hand back. The voltage is the pair (vα, vβ); compares are those of a, b, c.
StepAnswer = namedtuple('StepAnswer', 'number compares clipped voltage record')
RunAnswer = namedtuple('RunAnswer', 'number accepted clipped output record')


# Numbers and units

def held(number, lowest, highest):
    return max(lowest, min(number, highest))


def within(number, limit):
    """Whether the number is in ±limit."""
    return -limit <= number <= limit


# Settings

def obeys_gain_law(kp, kcor, ki):
    return 4096 * ki == kp * kcor


def refusal(settings):
    """The lowest number that refuses the settings, 0 where none does."""
    numbers = [setting.number for setting in SETTINGS if not setting.lowest <= settings[setting.name] <= setting.highest]
    for gains in ('speed', 'current'):
        if not obeys_gain_law(settings[gains + '_Kp'], settings[gains + '_Kcor'], settings[gains + '_Ki']):
            numbers.append(3)
    return min(numbers, default=0)


# The drive record

def word_ranges(record):
    """The lowest and the highest value of each word that is no flag, in a record with these settings and these steps."""
    return {
        'count': (0, 65535),
        'sum': (-32768 * record['steps'], 32768 * record['steps']),
        'steps': (0, 29),
        'speed': (-16383, 16383),
        'target': (-8191, 8191),
        'reference': (-8191, 8191),
        'torque': (-record['Q'], record['Q']),
        'flux_reference': (0, record['F']),
        'fine': (-81920000, 81920000),
        'angle': (0, 65535),
        'speed_integral': (-record['Q'], record['Q']),
        'd_integral': (-record['V'], record['V']),
        'q_integral': (-record['V'], record['V']),
    }


def is_broken(record):
    if refusal(record) != 0:
        return True
    return any(not lowest <= record[name] <= highest for name, (lowest, highest) in word_ranges(record).items())


def fresh(settings):
    """The fresh drive of settings that are not refused; the settings may be those of a record."""
    record = {setting.name: settings[setting.name] for setting in SETTINGS}
    for name in WORDS:
        record[name] = False if name in FLAGS else 0
    record['flux_reference'] = record['F']
    return record


# Numbers handed back

def is_refused_sample(ia, ib, count):
    return not (within(ia, 8191) and within(ib, 8191) and within(ia + ib, 8191) and 0 <= count <= 65535)


def step_number(record, ia, ib, count):
    if is_broken(record):
        return 14
    if record['tripped']:
        return 7
    if is_refused_sample(ia, ib, count):
        return 6
    return 0


def target_number(record, wanted):
    if is_broken(record):
        return 14
    if record['tripped']:
        return 7
    if not within(wanted, 8191):
        return 8
    return 0


def clear_number(record):
    if is_broken(record):
        return 14
    if not record['tripped']:
        return 10
    return 0


def run_number(record, samples, output):
    if is_broken(record):
        return 14
    if len(samples) % 3 != 0 or len(output) < len(samples) // 3 * 4:
        return 9
    return 0


# The calls

def make(settings):
    """The number and the fresh record, which is None where the number is not 0."""
    number = refusal(settings)
    return number, (fresh(settings) if number == 0 else None)


def target(record, wanted):
    """The number and the record afterwards."""
    number = target_number(record, wanted)
    return number, ({**record, 'target': wanted} if number == 0 else record)


def clear(record):
    """The number and the record afterwards."""
    number = clear_number(record)
    return number, (fresh(record) if number == 0 else record)


def step(record, ia, ib, count):
    number = step_number(record, ia, ib, count)
    if number == 0:
        return accepted_step(record, ia, ib, count)
    if number == 14:
        return StepAnswer(14, (0, 0, 0), False, (0, 0), record)
    after = {**record, 'tripped': True} if number == 6 else record
    return StepAnswer(number, (record['T'],) * 3, False, (0, 0), after)


# One accepted step, in order

def accepted_step(record, ia, ib, count):
    is_tick_now = is_tick(record['steps'])
    record = encoder(record, count)
    if is_tick_now:
        record = tick(record)
    alpha, beta = clarke(ia, ib)
    # The sine and cosine of the angle as it was before this step's flux model serve both Park and inverse Park.
    sin, cos = sine(record['angle']), cosine(record['angle'])
    d, q = park(alpha, beta, sin, cos)
    record = flux_model(record, d, q)
    vd, vq, record = current_regulators(record, d, q)
    voltage = inverse_park(vd, vq, sin, cos)
    compares, clipped = modulation(record['T'], *voltage)
    return StepAnswer(0, compares, clipped, voltage, record)


# 1. Encoder

def movement(seen, stored, count):
    if not seen:
        return 0
    moved = (count - stored) % 65536
    return moved - 65536 if moved >= 32768 else moved


def encoder(record, count):
    moved = movement(record['seen'], record['count'], count)
    return {**record, 'sum': record['sum'] + moved, 'steps': record['steps'] + 1, 'count': count, 'seen': True}


# 2. Tick

def is_tick(steps_before):
    return steps_before == 29


def measured_speed(total, kn):
    return held(total * kn // 256, -16383, 16383)


def ramp(reference, wanted, most):
    """The reference moved towards the target, by R at the most."""
    if abs(wanted - reference) <= most:
        return wanted
    return reference + most if wanted > reference else reference - most


def weakened_flux(speed, flux_up_to_base_speed):
    if within(speed, 4096):
        return flux_up_to_base_speed
    return flux_up_to_base_speed * 4096 // abs(speed)


def tick(record):
    speed = measured_speed(record['sum'], record['Kn'])
    reference = ramp(record['reference'], record['target'], record['R'])
    gains = record['speed_Kp'], record['speed_Kcor'], record['speed_Ki']
    torque, speed_integral = regulator(reference - speed, record['speed_integral'], gains, record['Q'])
    return {
        **record, 'sum': 0, 'steps': 0, 'speed': speed, 'reference': reference,
        'flux_reference': weakened_flux(speed, record['F']), 'torque': torque, 'speed_integral': speed_integral,
    }


# 3. Clarke

def clarke(ia, ib):
    return ia, (2 * ib + ia) * 2365 // 4096


# 4. Sine and cosine

def sine(angle):
    return entry(angle // 256)


def cosine(angle):
    return entry(angle // 256 + 64)


# 5. Park

def park(alpha, beta, sin, cos):
    return (alpha * cos + beta * sin) // 4096, (beta * cos - alpha * sin) // 4096


# 6. Flux model

def fine_after(fine, d, kr):
    return fine + kr * (4096 * d - fine) // 4096


def flux_of(fine):
    return fine // 4096


def slip(flux, q, kt):
    if flux < 41:
        return 0
    return held(kt * q // flux, -16383, 16383)


def angle_after(angle, speed_and_slip, kth):
    return (angle + kth * speed_and_slip // 4096) % 65536


def flux_model(record, d, q):
    fine = fine_after(record['fine'], d, record['Kr'])
    angle = angle_after(record['angle'], record['speed'] + slip(flux_of(fine), q, record['Kt']), record['Kth'])
    return {**record, 'fine': fine, 'angle': angle}


# 7. Current regulators

def current_regulators(record, d, q):
    gains = record['current_Kp'], record['current_Kcor'], record['current_Ki']
    vd, d_integral = regulator(record['flux_reference'] - d, record['d_integral'], gains, record['V'])
    vq, q_integral = regulator(record['torque'] - q, record['q_integral'], gains, record['V'])
    return vd, vq, {**record, 'd_integral': d_integral, 'q_integral': q_integral}


# 8. Inverse Park

def inverse_park(vd, vq, sin, cos):
    return (vd * cos - vq * sin) // 4096, (vq * cos + vd * sin) // 4096


# Regulator

def regulator(error, integral, gains, limit):
    """The output and the integral afterwards."""
    kp, kcor, ki = gains
    u = integral + error * kp // 4096
    out = held(u, -limit, limit)
    return out, integral + (error * ki + (out - u) * kcor) // 4096


# Sine table

def index_1(scale):
    """The cosine and the sine of index 1, by halving the angle of index 64 six times."""
    cos = 0
    for _ in range(6):
        cos_of_double = cos
        cos = math.isqrt(scale * (scale + cos) // 2)
    return cos, math.isqrt(scale * (scale - cos_of_double) // 2)


def kept_entries():
    """Entries 0 to 64, each by one turn more than the one before."""
    scale = 2 ** 40
    c, s = index_1(scale)
    cos, sin = scale, 0
    quarter = []
    for _ in range(65):
        quarter.append((4096 * sin + scale // 2) // scale)
        cos, sin = (cos * c - sin * s) // scale, (sin * c + cos * s) // scale
    return quarter


KEPT_ENTRIES = kept_entries()


def kept_entry(place):
    """What stands at a place, of which there are 0 to 64."""
    return KEPT_ENTRIES[place]


def place_of_entry(k):
    """Where entry k, 0 to 255, stands among those that are kept."""
    if k <= 64:
        return k
    if k <= 127:
        return 128 - k
    if k <= 192:
        return k - 128
    return 256 - k


def is_sign_turned(k):
    """Whether entry k has the other sign than what stands at its place."""
    return k >= 128


def index_of_one_turn(index):
    """An index past 255 as one of 0 to 255."""
    return index % 256


def entry(index):
    """Entry k of the sine table, for any index k."""
    k = index_of_one_turn(index)
    kept = kept_entry(place_of_entry(k))
    return -kept if is_sign_turned(k) else kept


# Modulation

def sector(x, y, z):
    """The number N."""
    return (1 if x > 0 else 0) + (2 if z < 0 else 0) + (4 if y < 0 else 0)


def sector_times(n, x, y, z):
    """The words of t1 and t2 in the table, and the phases that are on first, second and third."""
    return {
        0: (0, 0, 'abc'),
        1: (z, y, 'bac'),
        2: (y, -x, 'acb'),
        3: (-z, x, 'abc'),
        4: (-x, z, 'cba'),
        5: (x, -y, 'bca'),
        6: (-y, -z, 'cab'),
    }[n]


def clip(t1, t2, period):
    """Both times as they are used, and whether the step is clipped."""
    s = t1 + t2
    if s <= period:
        return t1, t2, False
    return t1 * period // s, t2 * period // s, True


def modulation(period, valpha, vbeta):
    """The compares of a, b, c, and whether the step is clipped."""
    a, b = 3547 * valpha, 2048 * vbeta
    x, y, z = 2 * b, a + b, b - a
    word1, word2, order = sector_times(sector(x, y, z), x, y, z)
    t1, t2, clipped = clip(period * word1 // 2 ** 24, period * word2 // 2 ** 24, period)
    first = (period - t1 - t2) // 2
    compare = dict(zip(order, (first, first + t1, first + t1 + t2)))
    return (compare['a'], compare['b'], compare['c']), clipped


# Run

def run(record, samples, output):
    """A run over samples, three to a row; the answer's output is a copy of the room lent, with the rows written into it."""
    number = run_number(record, samples, output)
    if number != 0:
        return RunAnswer(number, 0, 0, list(output), record)
    written, accepted, clipped = [], 0, 0
    for place in range(0, len(samples), 3):
        answer = step(record, *samples[place:place + 3])
        record = answer.record
        written += [*answer.compares, answer.number]
        accepted += 1 if answer.number == 0 else 0
        clipped += 1 if answer.clipped else 0
    return RunAnswer(0, accepted, clipped, written + list(output[len(written):]), record)


# The program run_rows

def numbers_of_line(line):
    """The decimal numbers of a line of bytes without its line feed, with one space between; None where it is anything else."""
    if not re.fullmatch(rb'-?[0-9]+( -?[0-9]+)*', line):
        return None
    numbers = [number_of_digits(word) for word in line.split(b' ')]
    return numbers if None not in numbers else None


def number_of_digits(word):
    """A decimal number of any length; None where it is outside 32 bits."""
    # Leading zeros go first and long words are refused by their length, since Python does not convert thousands of digits.
    digits = word.lstrip(b'-').lstrip(b'0') or b'0'
    if len(digits) > 10:
        return None
    number = -int(digits) if word.startswith(b'-') else int(digits)
    return number if -2147483648 <= number <= 2147483647 else None


def lines_of(text):
    """Each line's bytes without line feed, and whether a line feed ends it. Where nothing comes after the last line feed there is no line."""
    *ended, rest = text.split(b'\n')
    return [(line, True) for line in ended] + ([(rest, False)] if rest else [])


def program(text):
    """What run_rows writes for the bytes that it reads."""
    record, accepted, clipped = fresh(BENCH), 0, 0
    written = ['a b c no']
    for line_number, (line, is_ended) in enumerate(lines_of(text), 1):
        row = numbers_of_line(line)
        if not is_ended or row is None or len(row) != 3:
            written.append('bad %d' % line_number)
            break
        answer = step(record, *row)
        record = answer.record
        accepted += 1 if answer.number == 0 else 0
        clipped += 1 if answer.clipped else 0
        written.append('%d %d %d %d' % (*answer.compares, answer.number))
    written.append('steps %d clipped %d' % (accepted, clipped))
    return '\n'.join(written).encode() + b'\n'
