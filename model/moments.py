"""The last moments, from docs/RULES.md alone: the record beside the drive record, and the calls that store in it and read it.

A record of the last moments is a dict: a tuple of 128 words for each ring, and the two counts. No function changes a dict that it is given.

As in drive.py every rule is a function of this module and is looked up by its name when it is called: whoever replaces one replaces it for all.
"""

import drive

# The rings, in the order of the words of a row.
RINGS = ['ia', 'ib', 'speed', 'a', 'b', 'c']
PLACES = 128


def empty():
    return {**{name: (0,) * PLACES for name in RINGS}, 'next': 0, 'real': 0}


def counts(moments):
    """The counts next and real, as they are read."""
    if 0 <= moments['next'] <= 127 and 0 <= moments['real'] <= 128:
        return moments['next'], moments['real']
    return 0, 0


# Recorded step

def row_of(ia, ib, answer):
    """The six words of a step that was accepted with this answer."""
    return ia, ib, answer.record['speed'], *answer.compares


def counts_after(next_place, real):
    """The counts after a row was stored."""
    return (next_place + 1) % PLACES, min(real + 1, PLACES)


def stored(moments, row):
    """The record with one row more, the newest."""
    place, real = counts(moments)
    after = dict(moments)
    for name, word in zip(RINGS, row):
        after[name] = moments[name][:place] + (word,) + moments[name][place + 1:]
    after['next'], after['real'] = counts_after(place, real)
    return after


def step(record, moments, ia, ib, sample_count):
    """The answer of the step, which has the drive record, and the record of the last moments afterwards."""
    answer = drive.step(record, ia, ib, sample_count)
    return answer, (stored(moments, row_of(ia, ib, answer)) if answer.number == 0 else moments)


# Recorded clear and start

def clear(record, moments):
    """The number and both records afterwards."""
    number, after = drive.clear(record)
    return number, after, (empty() if number == 0 else moments)


def start(record, moments, settings):
    """The number and both records afterwards."""
    number, made = drive.make(settings)
    return (number, made, empty()) if number == 0 else (number, record, moments)


# Count and row

def count(moments):
    return counts(moments)[1]


def place_of_row(next_place, real, i):
    return (next_place - real + i) % PLACES


def row(moments, i):
    """The number and the six words of the row i."""
    next_place, real = counts(moments)
    if not 0 <= i < real:
        return 19, (0,) * len(RINGS)
    place = place_of_row(next_place, real, i)
    return 0, tuple(moments[name][place] for name in RINGS)
