"""Random calls that reach every rule: single ones on records of every sort, and histories, in which the record that the model answers is the next call's.

All of it follows from the seed. Numbers are mostly taken near ends of ranges, near 0 and near the values at which a rule changes, since most errors show there.
"""

import math
from random import Random

import drive
import probe

LOWEST_NUMBER = -2147483648
HIGHEST_NUMBER = 2147483647

# Values at which a rule changes, or next to them.
NOTABLE = {
    'fine': [4096 * flux + rest for flux in (39, 40, 41, 42, 43) for rest in (-1, 0, 2048)],
    'speed': [-4097, -4096, 0, 4096, 4097],
    'angle': [255, 256, 16383, 16384, 32768, 49152, 65280],
    'count': [1, 32767, 32768],
    'steps': [28, 29, 29, 29],
}


# Numbers

def somewhere(random, lowest, highest):
    """A number of the range: anywhere, at an end, or of any size, so that small ones are as frequent as great ones."""
    sort = random.randrange(8)
    if sort == 0:
        return random.choice([lowest, highest])
    if sort < 4:
        return random.randint(lowest, highest)
    size = int(math.exp(random.uniform(0, math.log(max(abs(lowest), abs(highest)) + 1)))) - 1
    number = random.choice([-size, size])
    return number if lowest <= number <= highest else random.randint(lowest, highest)


def wild(random):
    """Any number of 32 bits, often one at the ends of them."""
    if random.randrange(3) == 0:
        return random.choice([LOWEST_NUMBER, HIGHEST_NUMBER, LOWEST_NUMBER + 1, HIGHEST_NUMBER - 1, 0, -1])
    return random.randint(LOWEST_NUMBER, HIGHEST_NUMBER) >> random.randrange(24)


def outside(random, lowest, highest):
    """A number out of the range, mostly by 1; 32 bits hold it."""
    if random.randrange(4) > 0:
        return max(LOWEST_NUMBER, min(random.choice([lowest - 1, highest + 1]), HIGHEST_NUMBER))
    return random.choice([LOWEST_NUMBER, HIGHEST_NUMBER])


# Settings

def gain_set(random):
    """Gains that obey 4096·Ki = Kp·Kcor, which gains at random hardly ever do."""
    kp = min(32767, random.randint(1, 32767) >> random.randrange(15) << random.randrange(15)) or 1
    least = 4096 // math.gcd(kp, 4096)
    kcor = least * somewhere(random, 0, 4096 // least)
    return kp, kcor, kp * kcor // 4096


def accepted_settings(random):
    settings = {setting.name: somewhere(random, setting.lowest, setting.highest) for setting in drive.SETTINGS}
    for regulator in ('speed', 'current'):
        gains = gain_set(random)
        settings.update(zip((regulator + '_Kp', regulator + '_Kcor', regulator + '_Ki'), gains))
    return settings


def near_bench_settings(random):
    """The bench set with a few settings of another set, so that a drive with them is not clipped all the time."""
    settings, other = dict(drive.BENCH), accepted_settings(random)
    for setting in random.sample(drive.SETTINGS, 3):
        if setting.number != 2:
            settings[setting.name] = other[setting.name]
    return settings


def sound_settings(random):
    sort = random.randrange(4)
    if sort == 0:
        return dict(drive.BENCH)
    return near_bench_settings(random) if sort == 1 else accepted_settings(random)


def settings_with_one_out(random):
    settings = sound_settings(random)
    setting = random.choice(drive.SETTINGS)
    return {**settings, setting.name: outside(random, setting.lowest, setting.highest)}


def settings_against_the_gain_law(random):
    settings = sound_settings(random)
    name = random.choice([setting.name for setting in drive.SETTINGS if setting.number == 2])
    return {**settings, name: settings[name] + random.choice([-1, 1])}


def settings_with_several_out(random):
    """Several settings out, so that several numbers apply; the gains often untouched."""
    settings = sound_settings(random)
    for setting in random.sample(drive.SETTINGS, random.randint(2, 4)):
        settings[setting.name] = outside(random, setting.lowest, setting.highest)
    return settings


def wild_settings(random):
    return {setting.name: wild(random) for setting in drive.SETTINGS}


def any_settings(random):
    sorts = [sound_settings] * 4 + [settings_with_one_out] * 5 + [settings_against_the_gain_law] * 2 + [settings_with_several_out] * 2 + [wild_settings]
    return random.choice(sorts)(random)


# Records

def with_words(random, settings, value):
    """A record with these settings; value gives a word for its name and the record so far."""
    record = drive.fresh(settings)
    # The steps come before the sum, whose range depends on them.
    for name in ['steps'] + [name for name in drive.WORDS if name != 'steps']:
        record[name] = random.random() < 0.5 if name in drive.FLAGS else value(name, record)
    return record


def untripped_mostly(random, record):
    return {**record, 'tripped': random.randrange(8) == 0}


def sound_word(random, name, record):
    lowest, highest = drive.word_ranges(record)[name]
    if name in NOTABLE and random.randrange(3) == 0:
        return random.choice(NOTABLE[name])
    return somewhere(random, lowest, highest)


def sound_record(random):
    record = with_words(random, sound_settings(random), lambda name, so_far: sound_word(random, name, so_far))
    return untripped_mostly(random, record)


def tick_with_notable_speed(random):
    """A sound record before a tick that measures a speed near the one at which the flux is weakened."""
    record = {**sound_record(random), 'steps': 29, 'seen': False, 'sum': 0}
    total = random.choice([-1, 1]) * (4096 * 256 // record['Kn'] + random.randint(-8, 8))
    lowest, highest = drive.word_ranges(record)['sum']
    return {**record, 'sum': total if lowest <= total <= highest else 0}


def record_at_ends(random):
    record = with_words(random, sound_settings(random), lambda name, so_far: random.choice(drive.word_ranges(so_far)[name]))
    return untripped_mostly(random, record)


def record_with_one_out(random):
    record = sound_record(random)
    name = random.choice([name for name in drive.WORDS if name not in drive.FLAGS])
    return {**record, name: outside(random, *drive.word_ranges(record)[name])}


def record_with_other_settings(random):
    """Words that were sound with other settings, or settings that are refused."""
    return {**sound_record(random), **any_settings(random)}


def wild_record(random):
    return with_words(random, wild_settings(random), lambda name, so_far: wild(random))


def wild_words_record(random):
    return with_words(random, sound_settings(random), lambda name, so_far: wild(random))


def fresh_record(random):
    return drive.fresh(sound_settings(random))


def any_record(random):
    sorts = [sound_record] * 12 + [tick_with_notable_speed] * 2 + [record_at_ends] * 3 + [fresh_record] * 2 + [record_with_one_out] * 3
    sorts += [record_with_other_settings, wild_record, wild_words_record]
    return random.choice(sorts)(random)


# Samples

def held_current(current):
    return drive.held(current, -8191, 8191)


def following_currents(random, record):
    """Currents of a motor that does nearly what the references ask for, so that the regulators are not always clipped."""
    spread = random.choice([3, 60, 1500])
    d = record['flux_reference'] + random.randint(-spread, spread)
    q = record['torque'] + random.randint(-spread, spread)
    turned = 2 * math.pi * record['angle'] / 65536
    alpha = d * math.cos(turned) - q * math.sin(turned)
    beta = d * math.sin(turned) + q * math.cos(turned)
    ia = held_current(round(alpha))
    return ia, drive.held(round((beta * math.sqrt(3) - alpha) / 2), max(-8191, -8191 - ia), min(8191, 8191 - ia))


def any_currents(random):
    ia = somewhere(random, -8191, 8191)
    return ia, somewhere(random, max(-8191, -8191 - ia), min(8191, 8191 - ia))


def currents_at_ends(random):
    ends = [-8192, -8191, -4096, -4095, 0, 4095, 4096, 8191, 8192]
    return random.choice(ends), random.choice(ends)


def following_count(random, record):
    """A count as a shaft moves it, over the counter's end too; now and then half the counter away."""
    sort = random.randrange(16)
    if sort == 0:
        return (record['count'] + 32768 + random.randint(-1, 1)) % 65536
    if sort == 1:
        return random.choice([0, 65535, random.randint(0, 65535)])
    # The speed as it is, and something more or less.
    moved = record['speed'] * 256 // (30 * record['Kn']) + random.randint(-40, 40)
    return (record['count'] + moved) % 65536


def taken_sample(random, record):
    """A sample that is not refused; the record is not broken."""
    currents = following_currents(random, record) if random.randrange(3) > 0 else any_currents(random)
    return (*currents, following_count(random, record))


def refused_sample(random):
    sort = random.randrange(4)
    if sort == 0:
        return wild(random), wild(random), wild(random)
    if sort == 1:
        return (*any_currents(random), random.choice([-1, 65536, wild(random)]))
    if sort == 2:
        ia = random.randint(1, 8191)
        sign = random.choice([-1, 1])
        # Each current is small enough; the sum is not, mostly by 1.
        return sign * ia, sign * (8192 - ia + random.choice([0, 0, 0, ia - 1])), 0
    return random.choice([(8192, 0, 0), (-8192, 0, 0), (0, 8192, 0), (0, -8192, 0), (HIGHEST_NUMBER, HIGHEST_NUMBER, 0), (LOWEST_NUMBER, LOWEST_NUMBER, 0)])


def any_sample(random, record):
    sort = random.randrange(12)
    if sort == 0:
        return refused_sample(random)
    if sort == 1:
        return (*currents_at_ends(random), random.randint(0, 65535))
    if sort < 6 or drive.is_broken(record):
        return (*any_currents(random), random.randint(0, 65535))
    return taken_sample(random, record)


def any_target(random):
    sort = random.randrange(4)
    if sort == 0:
        return random.choice([-8192, -8191, 8191, 8192])
    return wild(random) if sort == 1 else somewhere(random, -8191, 8191)


# Calls

def single_call(random):
    sort = random.randrange(12)
    if sort < 3:
        return probe.Call('make', any_settings(random), ())
    record = any_record(random)
    if sort == 3:
        return probe.Call('target', record, (any_target(random),))
    if sort == 4:
        return probe.Call('clear', {**record, 'tripped': random.random() < 0.5}, ())
    return probe.Call('step', record, any_sample(random, record))


def next_call(random, record):
    """The next call of a history: mostly a step, now and then something else; a tripped drive is cleared before long."""
    sort = random.randrange(200)
    if record['tripped']:
        if sort < 80:
            return probe.Call('clear', record, ())
        if sort < 120:
            return probe.Call('target', record, (any_target(random),))
        return probe.Call('step', record, any_sample(random, record))
    if sort < 4:
        return probe.Call('target', record, (any_target(random),))
    if sort == 4:
        return probe.Call('clear', record, ())
    if sort == 5:
        return probe.Call('step', record, refused_sample(random))
    return probe.Call('step', record, taken_sample(random, record))


def record_after(call):
    if call.kind == 'step':
        return drive.step(call.record, *call.arguments).record
    return drive.target(call.record, *call.arguments)[1] if call.kind == 'target' else drive.clear(call.record)[1]


def history(random, length):
    record = fresh_record(random) if random.randrange(3) > 0 else sound_record(random)
    for _ in range(length):
        call = next_call(random, record)
        yield call
        record = record_after(call)


def random_calls(wanted, seed):
    """So many calls, the same ones for the same seed: stretches of single calls and histories in turn."""
    random = Random(seed)
    calls = []
    while len(calls) < wanted:
        calls += [single_call(random) for _ in range(150)]
        calls += history(random, random.randint(100, 500))
    return calls[:wanted]
