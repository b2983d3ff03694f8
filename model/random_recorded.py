"""Random calls on a drive record and a record of the last moments in place, for tests/recorded.c. All of it follows from the seed.

Two sorts of stretches come in turn. A calm one is steps and what leaves the rows alone, so that the rings turn. In a busy one all happens: trips, clears,
starts, drive records of every sort, counts and whole records of any words. Behind a call that was refused, and now and then, every word is shown.
"""

from random import Random

import drive
import moments
import random_calls
import recorded
from random_calls import HIGHEST_NUMBER, LOWEST_NUMBER, wild
from recorded import Call


# Arguments

def settings_call(random, kind):
    settings = random_calls.sound_settings(random) if random.randrange(3) == 0 else random_calls.any_settings(random)
    return Call(kind, tuple(settings.values()))


def step_call(random, places, kind='step'):
    """A step that a drive which runs takes."""
    return Call(kind, random_calls.any_sample(random, places.drive) if is_idle(places) else random_calls.taken_sample(random, places.drive))


def refused_step_call(random, _):
    return Call('step', random_calls.refused_sample(random))


def any_index(random, real):
    """An index of a row: mostly of one that there is, often at the ends or next to them."""
    sort = random.randrange(8)
    if sort < 4:
        return random.randint(0, max(real - 1, 0))
    if sort == 4:
        return random.choice([-1, 0, real - 1, real, real + 1])
    return random.choice([-128, 127, 128, 129, 255, 256, LOWEST_NUMBER, HIGHEST_NUMBER, wild(random), random.randint(-2, 130)])


def row_call(random, places):
    return Call('row', (any_index(random, moments.count(places.moments)),))


def any_count(random, highest):
    """One of the two counts: in range or not, often at an end of its range or next to it."""
    sort = random.randrange(4)
    if sort == 0:
        return wild(random)
    return random.choice([-1, 0, 1, 127, 128, 129]) if sort == 1 else random.randint(0, highest)


def put_counts_call(random, _):
    return Call('put counts', (any_count(random, 127), any_count(random, 128)))


def put_moments_call(random, _):
    """Any words in the rings, no two of them alike; the counts often in range, so that they can be read."""
    words = random.sample(range(LOWEST_NUMBER, HIGHEST_NUMBER + 1), moments.PLACES * len(moments.RINGS))
    counts = (any_count(random, 127), any_count(random, 128)) if random.randrange(2) else (random.randint(0, 127), random.randint(100, 128))
    return Call('put moments', (*words, *counts))


def put_drive_call(random, _):
    return Call('put drive', tuple(recorded.numbers_of_drive(random_calls.any_record(random))))


# Which call comes

def is_idle(places):
    """Whether a step would be refused, whatever its sample."""
    return places.drive['tripped'] or drive.is_broken(places.drive)


def bare(kind):
    """Makes the call of a kind that has no arguments."""
    return lambda random, places: Call(kind, ())


# How often each comes, and what makes it.
READS = [(18, row_call), (4, bare('count'))]
CALM = READS + [
    (70, step_call),
    (2, lambda random, places: step_call(random, places, 'plain step')),
    (2, lambda random, places: Call('target', (random_calls.any_target(random),))),
    (1, bare('show')),
    (1, bare('clear')),
]
BUSY = READS + [
    (30, step_call),
    (3, refused_step_call),
    (2, lambda random, places: Call('plain step', random_calls.any_sample(random, places.drive))),
    (2, bare('clear')),
    (1, bare('plain clear')),
    (3, lambda random, places: settings_call(random, 'start')),
    (1, lambda random, places: settings_call(random, 'plain start')),
    (1, lambda random, places: Call('target', (random_calls.any_target(random),))),
    (4, put_counts_call),
    (1, put_moments_call),
    (1, put_drive_call),
    (1, bare('show')),
]
# A drive that is tripped or broken is looked at, and then runs again before long.
IDLE = READS + [
    (6, step_call),
    (5, bare('clear')),
    (1, bare('plain clear')),
    (3, lambda random, places: settings_call(random, 'start')),
    (1, put_counts_call),
]


def next_call(random, places, ways):
    weights, makers = zip(*(IDLE if is_idle(places) else ways))
    return random.choices(makers, weights)[0](random, places)


def stretch(random, places, ways, length):
    """The calls of a stretch, done to the records one after the other."""
    for _ in range(length):
        call = next_call(random, places, ways)
        yield call
        answer = places.answer(call)
        if call.kind in ('start', 'step', 'clear') and answer[0] != 0:
            yield Call('show', ())


def random_recorded(wanted, seed):
    """So many recorded calls, and the others between them; the same ones for the same seed."""
    random = Random(seed)
    places = recorded.Places()
    calls, found = [Call('show', ())], 0
    while True:
        for ways, length in ((BUSY, random.randint(50, 300)), (CALM, random.randint(50, 600))):
            for call in stretch(random, places, ways, length):
                calls.append(call)
                found += call.kind in recorded.RECORDED
                if found == wanted:
                    return calls + [Call('show', ())]
