"""What the small programs of the tree write, by the same calls on the model: one function for each program."""

import os
import re

import drive
import moments as last_moments
import sheet
from sheets import handed_back

ROOT = os.path.dirname(os.path.dirname(os.path.realpath(__file__)))


def text_of(lines):
    return ''.join(line + '\n' for line in lines).encode()


# crates/test_entries

def entries():
    """The sine at seven angles, one a line; then for every index, 0 to 255, a line with the sine and the cosine of its first angle."""
    sines = [str(drive.sine(angle)) for angle in (0, 256, 4096, 8192, 16128, 16384, 255)]
    return text_of(sines + ['%d %d' % (drive.sine(256 * k), drive.cosine(256 * k)) for k in range(256)])


# crates/test_runs

def runs():
    """Eight runs, each with a line of the counts and the number and a line of the output's eight places, which all hold 7 before it."""
    sound = drive.fresh(drive.BENCH)
    tripped = {**sound, 'tripped': True}
    broken = {**sound, 'angle': 65536}
    samples = [0, 0, 0, 9000, 0, 0]
    written = []
    # the record, how many of the samples, and how many of the places are lent
    for record, taken, lent in [(sound, 6, 8), (sound, 3, 8), (sound, 0, 0), (sound, 4, 8), (sound, 6, 7), (tripped, 6, 8), (broken, 6, 8), (broken, 4, 7)]:
        places = [7] * 8
        answer = drive.run(record, samples[:taken], places[:lent])
        written.append('%d %d %d' % (answer.accepted, answer.clipped, answer.number))
        written.append(' '.join(str(place) for place in answer.output + places[lent:]))
    return text_of(written)


# crates/measure_run

def measured():
    """The run over and over, as often as standard input has bytes, on the samples that stand in the program: how many steps the last one accepted, and of the
    last row's four numbers whether each is above 300."""
    with open(os.path.join(ROOT, 'crates/measure_run/src/main.rt'), encoding='utf-8') as file:
        samples = [int(number) for number in re.findall(r'-?\d+', re.search(r'const SAMPLES: .*?= \[(.*?)\];', file.read(), re.S)[1])]
    with open(os.path.join(ROOT, 'crates/measure_run/stdin'), 'rb') as file:
        times = len(file.read())
    record = drive.fresh(drive.BENCH)
    for _ in range(times):
        answer = drive.run(record, samples, [0] * 128)
        record = answer.record
    return text_of([str(answer.accepted)] + ['1' if 300 < number else '0' for number in answer.output[124:]])


# examples/calls.c

class Place:
    """A record in place, as the C program has it, and the lines that are written about it. It starts zeroed."""

    def __init__(self):
        names = [setting.name for setting in drive.SETTINGS] + drive.WORDS
        self.record = {name: False if name in drive.FLAGS else 0 for name in names}
        self.lines = []

    def write(self, line):
        self.lines.append(line)

    def start(self, settings):
        number, made = drive.make(settings)
        if number == 0:
            self.record = made
        return number

    def step(self, ia, ib, count):
        answer = drive.step(self.record, ia, ib, count)
        self.record = answer.record
        return answer

    def row(self, ia, ib, count):
        answer = self.step(ia, ib, count)
        self.write('%d %d %d %d' % (*answer.compares, answer.number))
        return answer

    def voltage(self, answer):
        self.write('voltage %d %d clipped %d' % (*answer.voltage, answer.clipped))

    def target(self, wanted):
        number, self.record = drive.target(self.record, wanted)
        self.write('target %d' % number)

    def clear(self):
        number, self.record = drive.clear(self.record)
        self.write('clear %d' % number)

    def words(self):
        for line in ('count %(count)d seen %(seen)d sum %(sum)d steps %(steps)d speed %(speed)d',
                     'target %(target)d reference %(reference)d torque %(torque)d flux %(flux_reference)d',
                     'field fine %(fine)d flux %(flux)d angle %(angle)d',
                     'integrals %(speed_integral)d %(d_integral)d %(q_integral)d tripped %(tripped)d'):
            self.write(line % {**self.record, 'flux': drive.flux_of(self.record['fine'])})


def kept(is_kept):
    return 'record as it was' if is_kept else 'record changed'


def calls_rows(place):
    place.voltage(place.row(0, 0, 0))
    before = place.record
    place.row(9000, 0, 0)
    place.write('tripped %d' % place.record['tripped'])
    place.write('but for the mark: ' + kept({**place.record, 'tripped': False} == before))
    place.row(0, 0, 0)


def calls_cleared(place):
    place.target(100)
    place.clear()
    place.clear()
    place.target(8192)
    place.target(100)
    place.write('in the record %d' % place.record['target'])
    place.row(0, 0, 0)


def calls_refused(place):
    before = place.record
    for wrong in ({'T': 99}, {'speed_Kp': 0}, {'speed_Ki': 129}, {'V': 0}, {'F': 409}):
        number = place.start({**drive.BENCH, **wrong})
        place.write('start %d, %s' % (number, kept(place.record == before)))


def calls_broken(place):
    place.record = {**place.record, 'angle': 65536}
    place.row(0, 0, 0)
    place.target(100)
    place.clear()
    calls_refused(place)
    place.write('start %d' % place.start(drive.BENCH))
    place.row(0, 0, 0)


def calls_fluxes(place):
    for fine in (-2147483648, -81920000, -4097, -4096, -1, 0, 4095, 4096, 81920000, 2147483647):
        place.write('fine %d flux %d' % (fine, drive.flux_of(fine)))


def calls_ticked(place):
    distinct = {**drive.BENCH, 'T': 1000, 'current_Kp': 2048, 'current_Kcor': 512, 'V': 900, 'Kn': 63}
    place.write('start %d' % place.start(distinct))
    place.target(100)
    for k in range(31):
        place.step(1000, -300, 700 * k)
    place.voltage(place.row(1000, -300, 700 * 31))
    place.words()


class Recorder(Place):
    """A drive record and a record of the last moments in place."""

    def __init__(self):
        super().__init__()
        self.moments = last_moments.empty()

    def recorded_start(self, settings):
        number, self.record, self.moments = last_moments.start(self.record, self.moments, settings)
        return number

    def recorded_step(self, ia, ib, count):
        answer, self.moments = last_moments.step(self.record, self.moments, ia, ib, count)
        self.record = answer.record
        return answer.number

    def recorded_clear(self):
        number, self.record, self.moments = last_moments.clear(self.record, self.moments)
        return number

    def print_row(self, i):
        number, words = last_moments.row(self.moments, i)
        self.write('row %d: %d, %d %d %d %d %d %d' % (i, number, *words))

    def and_rows(self, call, number):
        self.write('%s %d, rows %d' % (call, number, last_moments.count(self.moments)))

    def write_counts(self):
        self.write('next %(next)d real %(real)d' % self.moments)


def calls_wild(place):
    for next_place, real in ((128, 1), (-1, 1), (0, 129), (0, -1)):
        place.moments = {**place.moments, 'next': next_place, 'real': real}
        place.print_row(0)
        place.and_rows('refused step', place.recorded_step(9000, 0, 0))
        place.write_counts()
        place.record = {**place.record, 'tripped': False}
        place.and_rows('step', place.recorded_step(5, 6, 7))
        place.write_counts()


def calls_recorded(place):
    place.and_rows('recorded start', place.recorded_start(drive.BENCH))
    for k in range(1, 131):
        number = place.recorded_step(k, -2 * k, 300 * k)
    place.and_rows('recorded step 130 times,', number)
    for i in (-1, 0, 127, 128):
        place.print_row(i)
    place.and_rows('step without a record', place.step(0, 0, 0).number)
    place.and_rows('recorded clear', place.recorded_clear())
    place.and_rows('recorded start', place.recorded_start({**drive.BENCH, 'T': 99}))
    place.and_rows('recorded step', place.recorded_step(9000, 0, 0))
    place.and_rows('recorded step', place.recorded_step(0, 0, 0))
    place.print_row(127)
    place.and_rows('recorded clear', place.recorded_clear())
    calls_wild(place)
    place.record = {**place.record, 'angle': 65536}
    place.and_rows('recorded step', place.recorded_step(0, 0, 0))
    place.and_rows('recorded clear', place.recorded_clear())
    place.and_rows('recorded start', place.recorded_start(drive.BENCH))


def calls():
    """What examples/calls.c writes; its functions have the same names here, after calls_."""
    place = Recorder()
    place.row(0, 0, 0)
    place.write('start %d' % place.start(drive.BENCH))
    calls_rows(place)
    calls_cleared(place)
    calls_broken(place)
    calls_fluxes(place)
    calls_ticked(place)
    calls_recorded(place)
    return text_of(place.lines)


# examples/interrupt.c and examples/interrupt.rs, one program in two languages

class Station(Place):
    """A record in place with a handler of the pulse interrupt over it: the number that took the gates away stays until a start or a clear."""

    def __init__(self):
        super().__init__()
        self.refused = 0

    def periods(self, samples):
        for sample in samples:
            answer = self.step(*sample)
            if answer.number == 0:
                self.write('compares %d %d %d, gates on' % answer.compares)
            else:
                self.refused = self.refused or answer.number
                self.write('gates off, number %d' % self.refused)


def interrupt():
    """What examples/interrupt.c and examples/interrupt.rs write."""
    samples = [(0, 0, 0), (310, -160, 2), (590, -280, 4), (840, -430, 6), (9000, -430, 8), (1050, -520, 10), (240, -130, 65534), (460, -220, 0)]
    station = Station()
    station.periods(samples[:1])
    station.write('start %d' % station.start(drive.BENCH))
    station.refused = 0
    station.target(2048)
    station.periods(samples[:6])
    station.target(2048)
    station.clear()
    station.refused = 0
    station.target(2048)
    station.periods(samples[6:])
    return text_of(station.lines)


# examples/moments.c

class Desk(Recorder):
    """The station on a desk, with a record of the last moments."""

    def period(self, k):
        """The number of the k-th step."""
        return self.recorded_step(k * k * 2 // 5, -7 * k, 2 * k * k % 65536)

    def rows(self):
        self.write('rows: %d' % last_moments.count(self.moments))

    def print_row_after_a_period(self, i, k):
        self.period(k)
        number, words = last_moments.row(self.moments, i)
        self.write('row %d: ' % i + ('ia %d ib %d speed %d compares %d %d %d' % words if number == 0 else 'number %d' % number))


def moments():
    """What examples/moments.c writes."""
    desk = Desk()
    desk.write('start %d' % desk.recorded_start(drive.BENCH))
    desk.target(2048)
    k, refused = 0, 0
    while refused == 0:
        refused = desk.period(k)
        k += 1
    desk.write('trip: number %d, after %d accepted steps' % (refused, k - 1))
    desk.rows()
    count = last_moments.count(desk.moments)
    desk.print_row_after_a_period(0, k)
    for i in range(count - 8, count + 1):
        desk.print_row_after_a_period(i, k + i)
    desk.write('clear %d' % desk.recorded_clear())
    desk.rows()
    return text_of(desk.lines)


# examples/flux.c

def flux():
    """What examples/flux.c writes."""
    place = Place()
    place.write('start %d' % place.start(drive.BENCH))
    up, refused = False, 0
    for steps in range(1, 10001):
        refused = refused or place.step(2458, -1229, 0).number
        reckoned = drive.flux_of(place.record['fine'])
        if not up and reckoned >= 2458 * 19 // 20:
            up = True
            number, place.record = drive.target(place.record, 2048)
            place.write('flux %d after %d steps, target %d' % (reckoned, steps, number))
        if steps in (1, 2, 10, 50, 100, 200, 400, 422, 423, 687, 688, 10000):
            place.write('after %d steps: flux %d, fine %d' % (steps, reckoned, place.record['fine']))
    place.write('refused %d' % refused)
    return text_of(place.lines)


# examples/clipped.c

def between_phases(answer):
    """Of a less b, b less c, a less c: the differences of the on-times, and those asked for, each with the whole that it is a part of."""
    a, b, c = answer.compares
    alpha, beta = 3547 * answer.voltage[0], 2048 * answer.voltage[1]
    asked = alpha - beta, 2 * beta, alpha + beta
    whole = max(abs(difference) for difference in asked) if answer.clipped else 2 ** 24
    return list(zip((b - a, c - b, c - a), asked)), whole


def thousandths_away(differences, whole):
    """How far the furthest of the three is from what it should be."""
    return max(1000 * abs(given * whole - drive.BENCH['T'] * asked) // whole for given, asked in differences)


def nearest(n, whole):
    return (2 * n + whole) // (2 * whole)


def told_step(k, answer, differences, whole):
    period = drive.BENCH['T']
    said = 'step %d: voltage %d %d clipped %d' % (k, *answer.voltage, answer.clipped)
    said += ', on-times %d %d %d' % tuple(period - compare for compare in answer.compares)
    return said + ''.join(', %s %d (%d)' % (name, given, nearest(period * asked, whole)) for name, (given, asked) in zip(('a-b', 'b-c', 'a-c'), differences))


def clipped():
    """What examples/clipped.c writes."""
    place = Place()
    place.write('start %d' % place.start(drive.BENCH))
    place.target(4096)
    refused, away = 0, []
    for k in range(1, 3001):
        answer = place.step(100, -50, k * k // 16 % 65536)
        refused += 1 if answer.number != 0 else 0
        differences, whole = between_phases(answer)
        if k in (1, 100, 174, 175, 600, 1200, 1500, 1700, 1900, 2000):
            place.write(told_step(k, answer, differences, whole))
        if answer.clipped:
            away.append(thousandths_away(differences, whole))
    turned = sum(1 for thousandths in away if thousandths >= 2000)
    place.write('refused %d, clipped %d, of these with a difference 2 counts away or more %d' % (refused, len(away), turned))
    place.write('furthest away: %d thousandths of a count' % max(away))
    return text_of(place.lines)


# examples/sheets.c

class Workshop(Place):
    """A drive record in place, and sheets that are read and written."""

    # MIRGALHET_SHEET_ROOM of the header
    ROOM = 187

    def read_sheet(self, text):
        """The settings that come back."""
        reading = sheet.read(text)
        self.write('read %d, line %d' % (reading.number, reading.line))
        return handed_back(reading)

    def start_and_step(self, settings):
        self.write('start %d' % self.start(settings))
        answer = self.step(0, 0, 0)
        self.write('step %d, compares %d %d %d' % (answer.number, *answer.compares))

    def write_sheet(self, settings, room):
        """The length."""
        before = bytes(room)
        writing = sheet.write(settings, before)
        self.write('write %d, length %d, %s' % (writing.number, writing.length, 'nothing written' if writing.room == before else 'this sheet:'))
        self.lines += writing.room[:writing.length].decode().splitlines()
        return writing.length


def sheets():
    """What examples/sheets.c writes."""
    bench = sheet.sheet_of(drive.BENCH)
    workshop = Workshop()
    settings = workshop.read_sheet(bench)
    workshop.start_and_step(settings)
    workshop.start_and_step(workshop.read_sheet(bench.replace(b'sKp=2\n', b'sKp=1,250\n')))
    settings = {**settings, 'Q': 4096}
    workshop.write_sheet(settings, workshop.write_sheet(settings, Workshop.ROOM) - 1)
    return text_of(workshop.lines)
