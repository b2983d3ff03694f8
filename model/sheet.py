"""The sheet, and the program that reads one, from docs/RULES.md alone.

A text and a room are bytes; settings are a dict as in drive.py. Lines are counted from 1.

As in drive.py every rule is a function of this module and is looked up by its name when it is called: whoever replaces one replaces it for all.
"""

import re
from collections import namedtuple
from decimal import Decimal
from fractions import Fraction

import drive

# The names of the lines, in the order of the settings; the gains are those that number 2 refuses.
NAMES = 'T sKp sKcor sKi cKp cKcor cKi V Q Kr Kt Kth Kn F R'.split()
GAINS = [name for name, setting in zip(NAMES, drive.SETTINGS) if setting.number == 2]

# What the calls hand back. Settings are None where the number is not 0; the room is as it is afterwards.
Reading = namedtuple('Reading', 'number line settings')
Writing = namedtuple('Writing', 'number length room')


# The sheet: values

def whole_number(value):
    """The number of one to five digits, None where the value is anything else."""
    return int(value) if re.fullmatch(rb'0|[1-9][0-9]{0,4}', value) else None


def is_behind_a_point(digits):
    return re.fullmatch(rb'[0-9]{0,11}[1-9]', digits) is not None


def in_4096ths(number):
    """The number in 4096ths, None where that is no whole number."""
    word = number * 4096
    return int(word) if word.denominator == 1 else None


def gain(value):
    """The word of a gain, None where the value is none."""
    before, point, behind = value.partition(b'.')
    whole = whole_number(before)
    if whole is None:
        return None
    if not point:
        return whole * 4096
    return in_4096ths(whole + Fraction(int(behind), 10 ** len(behind))) if is_behind_a_point(behind) else None


def value_of(name, word):
    """The value of a line in its shortest form: a 4096th has twelve digits behind the point at the most, so that the division is exact."""
    return '{:f}'.format(Decimal(word) / 4096) if name in GAINS else str(word)


# The sheet: reading

def word_of_line(name, line, is_ended):
    """The word of a line without its line feed, None where it is not good."""
    start = name.encode() + b'='
    if not is_ended or not line.startswith(start):
        return None
    value = line[len(start):]
    return gain(value) if name in GAINS else whole_number(value)


def good_words(lines):
    """The words of the lines, up to the first that is not good or is missing."""
    words = []
    for name, (line, is_ended) in zip(NAMES, lines):
        word = word_of_line(name, line, is_ended)
        if word is None:
            break
        words.append(word)
    return words


def faulty_line(words, lines):
    """The number of the first line that is not good, 0 where there is none."""
    if len(words) < len(NAMES):
        return len(words) + 1
    return len(NAMES) + 1 if len(lines) > len(NAMES) else 0


def line_and_settings(text):
    """The first faulty line and None; or 0 and the settings that the text has, refused or not."""
    lines = drive.lines_of(text)
    words = good_words(lines)
    line = faulty_line(words, lines)
    return line, ({setting.name: word for setting, word in zip(drive.SETTINGS, words)} if line == 0 else None)


def read(text):
    line, settings = line_and_settings(text)
    if line != 0:
        return Reading(17, line, None)
    number = drive.refusal(settings)
    return Reading(number, 0, settings if number == 0 else None)


# The sheet: writing

def sheet_of(settings):
    """The sheet of settings that are not refused."""
    lines = ['%s=%s\n' % (name, value_of(name, settings[setting.name])) for name, setting in zip(NAMES, drive.SETTINGS)]
    return ''.join(lines).encode()


def has_room(text, room):
    return len(text) <= len(room)


def write_number(settings, room):
    number = drive.refusal(settings)
    if number != 0:
        return number
    return 0 if has_room(sheet_of(settings), room) else 18


def write(settings, room):
    """The answer for a room that has these bytes before."""
    number = write_number(settings, room)
    if number != 0:
        return Writing(number, 0, room)
    text = sheet_of(settings)
    return Writing(0, len(text), text + room[len(text):])


# The program sheet

def expected(line):
    """What should stand in a line."""
    if line > len(NAMES):
        return 'the end of the sheet'
    name = NAMES[line - 1]
    if name in GAINS:
        return name + '= and a gain such as 0.25 or 2, a whole number of 4096ths, with a point, no comma, no zero in front or behind'
    return name + '= and a whole number of one to five digits, with no zero in front'


def shown(found):
    """Bytes as they are printed, those outside 32..126 as question marks."""
    return re.sub(rb'[^ -~]', b'?', found).decode()


def found_in(text, line):
    """What stands in a line."""
    lines = drive.lines_of(text)
    if line > len(lines):
        return 'nothing'
    found, is_ended = lines[line - 1]
    if len(found) > 40:
        return '"%s" and more' % shown(found[:40])
    return '"%s"%s' % (shown(found), '' if is_ended else ' without a line feed')


def out_of_range(settings):
    """What is said of the first word that is out of its range."""
    for name, setting in zip(NAMES, drive.SETTINGS):
        word = settings[setting.name]
        if not setting.lowest <= word <= setting.highest:
            return '%s is %s, and must be %s to %s' % (name, *(value_of(name, number) for number in (word, setting.lowest, setting.highest)))
    return None


def untied(settings):
    """What is said of the first gain set that breaks the law."""
    speed_gains = (settings[name] for name in ('speed_Kp', 'speed_Kcor', 'speed_Ki'))
    first, ki = ('c', settings['current_Ki']) if drive.obeys_gain_law(*speed_gains) else ('s', settings['speed_Ki'])
    return '%sKi is %s, and must be %sKp times %sKcor' % (first, value_of('sKi', ki), first, first)


def program(text):
    """What the program writes for the bytes that it reads."""
    reading = read(text)
    if reading.number == 0:
        return b'0\n' + sheet_of(reading.settings)
    if reading.number == 17:
        said = '17 line %d: expected %s; found %s' % (reading.line, expected(reading.line), found_in(text, reading.line))
    else:
        _, settings = line_and_settings(text)
        said = '%d: %s' % (reading.number, untied(settings) if reading.number == 3 else out_of_range(settings))
    return said.encode() + b'\n'
