"""The program tests/recorded.c, by the model: calls on two records in place, one a line, one answer a line. README.md beside this file has the format."""

from collections import Counter, namedtuple

import drive
import moments
import probe

# The call's number is its place in this list. The first five are the recorded ones.
KINDS = ['start', 'step', 'clear', 'count', 'row', 'plain start', 'plain step', 'plain clear', 'target', 'put drive', 'put moments', 'put counts', 'show']
RECORDED = KINDS[:5]

DRIVE_NAMES = probe.SETTING_NAMES + drive.WORDS
COUNTS = ['next', 'real']
MOMENTS_NAMES = ['%s[%d]' % (name, place) for name in moments.RINGS for place in range(moments.PLACES)] + COUNTS

# The names of the numbers that answer a call.
STEP_ANSWER = ['number', 'a', 'b', 'c', 'clipped', 'valpha', 'vbeta']
ANSWERS = {
    'start': ['number'], 'step': STEP_ANSWER, 'clear': ['number'], 'count': ['count'], 'row': ['number'] + moments.RINGS,
    'plain start': ['number'], 'plain step': STEP_ANSWER, 'plain clear': ['number'], 'target': ['number'],
    'put drive': [], 'put moments': [], 'put counts': [], 'show': DRIVE_NAMES + MOMENTS_NAMES,
}

# A call: its kind, and the numbers that come after the call's own.
Call = namedtuple('Call', 'kind arguments')


def line_of(call):
    return probe.joined((KINDS.index(call.kind), *call.arguments))


def drive_of(numbers):
    """The drive record of the numbers of its settings and words; a flag is 0 or 1."""
    record = dict(zip(DRIVE_NAMES, numbers))
    return {**record, **{name: record[name] == 1 for name in drive.FLAGS}}


def numbers_of_drive(record):
    return [int(record[name]) for name in DRIVE_NAMES]


def moments_of(numbers):
    """The record of the last moments of the numbers of all its words."""
    rings = {name: tuple(numbers[at * moments.PLACES:(at + 1) * moments.PLACES]) for at, name in enumerate(moments.RINGS)}
    return {**rings, 'next': numbers[-2], 'real': numbers[-1]}


def numbers_of_moments(record):
    return [word for name in moments.RINGS for word in record[name]] + [record[name] for name in COUNTS]


def numbers_of_answer(answer):
    return [answer.number, *answer.compares, int(answer.clipped), *answer.voltage]


class Places:
    """The two records, as the program has them: both zeroed before the first call. What happened to them is counted in happened."""

    def __init__(self):
        self.drive = drive_of([0] * len(DRIVE_NAMES))
        self.moments = moments.empty()
        self.happened = Counter()

    def answer(self, call):
        """The numbers that answer the call, which is done to the records."""
        return getattr(self, call.kind.replace(' ', '_'))(*call.arguments)

    def has_wild_counts(self):
        return moments.counts(self.moments) != (self.moments['next'], self.moments['real'])

    def start(self, *settings):
        number, self.drive, self.moments = moments.start(self.drive, self.moments, dict(zip(probe.SETTING_NAMES, settings)))
        return [number]

    def step(self, *sample):
        was_wild, was_full, place = self.has_wild_counts(), moments.count(self.moments) == moments.PLACES, self.moments['next']
        answer, self.moments = moments.step(self.drive, self.moments, *sample)
        self.drive = answer.record
        if answer.number == 0:
            self.happened['stored'] += 1
            self.happened['stored on wild counts'] += was_wild
            self.happened['stored over the oldest'] += was_full
            self.happened['rings turned'] += place == moments.PLACES - 1
        return numbers_of_answer(answer)

    def clear(self):
        number, self.drive, self.moments = moments.clear(self.drive, self.moments)
        return [number]

    def count(self):
        return [moments.count(self.moments)]

    def row(self, i):
        number, words = moments.row(self.moments, i)
        self.happened['read'] += number == 0
        self.happened['asked for on wild counts'] += self.has_wild_counts()
        return [number, *words]

    def plain_start(self, *settings):
        number, made = drive.make(dict(zip(probe.SETTING_NAMES, settings)))
        self.drive = made if number == 0 else self.drive
        return [number]

    def plain_step(self, *sample):
        answer = drive.step(self.drive, *sample)
        self.drive = answer.record
        return numbers_of_answer(answer)

    def plain_clear(self):
        number, self.drive = drive.clear(self.drive)
        return [number]

    def target(self, wanted):
        number, self.drive = drive.target(self.drive, wanted)
        return [number]

    def put_drive(self, *numbers):
        self.drive = drive_of(numbers)
        return []

    def put_moments(self, *numbers):
        self.moments = moments_of(numbers)
        return []

    def put_counts(self, next_place, real):
        self.moments = {**self.moments, 'next': next_place, 'real': real}
        return []

    def show(self):
        return numbers_of_drive(self.drive) + numbers_of_moments(self.moments)
