"""Random sheets, good ones, refused ones and ones with damage, and settings to write into room of every size. All of it follows from the seed.

An edit chooses its line first and then the place in it, so that every line is the first faulty one as often as any other, whatever their lengths.
"""

import re
from random import Random

import drive
import random_calls
import sheet
from sheets import Read, Write

# Bytes that mean something on a sheet, or are next to such, or could be taken for such.
TELLING = list(b',.0123456789=\r\n\t -+/:eExTsKcF') + [0, 127, 128, 160, 255]

# Values that could be taken for a whole number or for a gain, and some that are one.
VALUES = [
    b'', b'0', b'00', b'05', b'007', b'-1', b'+1', b'-0', b' 1', b'1 ', b'1\r', b'\t1', b'99999', b'100000', b'099999', b'4294967296', b'18446744073709551617',
    b'.', b'.5', b'1.', b'0.', b'1.0', b'1.50', b'0.50', b'1.5', b'0.5', b'01.5', b'00.5', b'1..5', b'1.2.5', b'1,250', b'1,25', b'0,5', b'1.25,', b"1'250",
    b'0.1', b'0.0001', b'0.0002', b'0.00024414', b'0.000244140625', b'0.000244140626', b'0.0002441406250', b'0.0001220703125', b'1.0001220703125',
    b'0.0002441406251', b'1.0002441406255',
    b'0.000000000001', b'0.999999999999', b'0.0000000000001', b'0.99975585937', b'7.999755859375', b'8', b'99999.999755859375', b'100000.5',
    b'123456.000244140625', b'1e3', b'1E1', b'0x10', b'0b1', b'1_0', b'1f', b'nan', b'inf', b'one', b'1/2', b'50%', b'1=1', b'=1', b'1\x00',
    b'\xef\xbb\xbf1', b'\xef\xbc\x91', b'\xd9\xa1', b'\xb2', b'\xbd',
]


# Settings

def accepted_settings(random):
    """Settings that are not refused, often with each word at an end of its range."""
    settings = random_calls.sound_settings(random)
    if random.randrange(4) == 0:
        settings.update((setting.name, random.choice([setting.lowest, setting.highest])) for setting in drive.SETTINGS if setting.number != 2)
    return settings


def highest_on_a_sheet(setting):
    """The highest word that a value has."""
    return 99999 * 4096 + 4095 if setting.number == 2 else 99999


def refused_settings(random):
    """Settings that are refused and can stand on a sheet: a few out of range, or gains that are not tied to each other."""
    settings = accepted_settings(random)
    while drive.refusal(settings) == 0:
        for setting in random.sample(drive.SETTINGS, random.choice([1, 1, 1, 2, 4])):
            word = settings[setting.name] + random.choice([-1, 1]) if random.randrange(3) == 0 else random.choice(
                [setting.lowest - 1, setting.highest + 1, random.randint(0, highest_on_a_sheet(setting)), highest_on_a_sheet(setting)])
            settings[setting.name] = drive.held(word, 0, highest_on_a_sheet(setting))
    return settings


def settings_of_gain(word):
    """Settings that are not refused and have this word as their speed Ki."""
    kp, kcor = (word, 4096) if word > 0 else (4096, 0)
    return {**drive.BENCH, 'speed_Kp': kp, 'speed_Kcor': kcor, 'speed_Ki': word}


# Damage

def lines_of(text):
    """The lines of a text with their line feeds; an empty text is one empty line."""
    return re.findall(rb'[^\n]*\n|[^\n]+', text) or [b'']


def any_byte(random):
    return bytes([random.choice(TELLING) if random.randrange(5) > 0 else random.randrange(256)])


def some_bytes(random, most):
    return b''.join(any_byte(random) for _ in range(random.randint(1, most)))


def byte_inserted(random, lines, at):
    place = random.randint(0, len(lines[at]))
    lines[at] = lines[at][:place] + any_byte(random) + lines[at][place:]


def byte_deleted(random, lines, at):
    place = random.randrange(max(len(lines[at]), 1))
    lines[at] = lines[at][:place] + lines[at][place + 1:]


def byte_replaced(random, lines, at):
    place = random.randrange(max(len(lines[at]), 1))
    lines[at] = lines[at][:place] + any_byte(random) + lines[at][place + 1:]


def lines_swapped(random, lines, at):
    other = random.choice([random.randrange(len(lines)), min(at + 1, len(lines) - 1)])
    lines[at], lines[other] = lines[other], lines[at]


def line_doubled(_, lines, at):
    lines[at] *= 2


def line_dropped(_, lines, at):
    lines[at] = b''


def line_of_any_bytes(random, lines, at):
    """Another line, with lengths about 40 too."""
    length = random.choice([0, 1, 39, 40, 41, random.randrange(100)])
    lines[at] = b''.join(any_byte(random) for _ in range(length)) + random.choice([b'', b'\n'])


def carriage_return_put(_, lines, at):
    """The end of a line as some machines have it; every line of the text where it is the first."""
    for place in range(len(lines)) if at == 0 else [at]:
        lines[place] = lines[place].replace(b'\n', b'\r\n')


def value_put(random, lines, at):
    """Another value, or the value with something before, in or behind it."""
    name, equals, value = lines[at].partition(b'=')
    value, end = value.rstrip(b'\n'), b'\n' if value.endswith(b'\n') else b''
    others = [b'0' + value, value + b'0', value + b'.', value + b'.0', value + b'.5', b'+' + value, b'-' + value, value.replace(b'.', b','), value.lstrip(b'0')]
    others += [value + b'00000', value[:-1], value + any_byte(random), b'%d' % random.randrange(100000)]
    others += [b'%d.%0*d' % (random.randrange(9), digits, random.randrange(10 ** digits)) for digits in (5, 12)]
    others.append(sheet.value_of('sKp', random.randrange(32768)).encode())
    lines[at] = name + equals + random.choice(VALUES if random.randrange(2) == 0 else others) + end


def name_put(random, lines, at):
    """Another name, or the same in other letters."""
    name, equals, value = lines[at].partition(b'=')
    lines[at] = random.choice([name.swapcase(), name.lower(), b'', name + b' ', b' ' + name, random.choice(sheet.NAMES).encode()]) + equals + value


def bytes_appended(random, lines, _):
    lines.append(random.choice([any_byte(random), some_bytes(random, 60), b'\n', random.choice(lines)]))


def text_cut(random, lines, at):
    """The text up to a place; often just behind a line feed or just before one."""
    length = len(lines[at])
    lines[at:] = [lines[at][:random.choice([0, max(length - 1, 0), random.randint(0, length)])]]


EDITS = [byte_inserted, byte_deleted, byte_replaced] * 3 + [value_put] * 8 + [text_cut, bytes_appended] * 2
EDITS += [lines_swapped, line_doubled, line_dropped, line_of_any_bytes, carriage_return_put, name_put]


def damaged(random, text):
    """The text with one to three edits."""
    for _ in range(random.choice([1, 1, 1, 1, 2, 3])):
        lines = lines_of(text)
        random.choice(EDITS)(random, lines, random.randrange(len(lines)))
        text = b''.join(lines)
    return text


# Sheets

def good_sheet(random):
    return sheet.sheet_of(accepted_settings(random))


def refused_sheet(random):
    return sheet.sheet_of(refused_settings(random))


def damaged_sheet(random):
    return damaged(random, good_sheet(random) if random.randrange(6) > 0 else refused_sheet(random))


def long_sheet(random):
    """A sheet, damaged or not, and many bytes behind it."""
    return random.choice([good_sheet, damaged_sheet])(random) + random.choice([b'0', b'\n', b' ', some_bytes(random, 50)]) * random.randint(1, 200)


def random_bytes(random, most=65536):
    return random.getrandbits(8 * most).to_bytes(most, 'big')[:random.randint(0, most)]


def whole_sheet(random):
    """A sheet without damage at a random place: a good one, a refused one, one that goes on, or, now and then, random bytes."""
    sort = random.randrange(500)
    if sort < 200:
        return good_sheet(random)
    if sort < 400:
        return refused_sheet(random)
    return random_bytes(random) if sort == 400 else long_sheet(random)


def any_sheet(random):
    return whole_sheet(random) if random.randrange(5) == 0 else damaged_sheet(random)


def random_sheets(wanted, seed):
    """So many texts with damage at random places and a quarter as many without, the same ones for the same seed."""
    random = Random(seed)
    return [damaged_sheet(random) for _ in range(wanted)] + [whole_sheet(random) for _ in range(wanted // 4)]


# For tests/sheets.c

def any_room(random, length):
    """Room for a sheet of this length, or nearly."""
    return random.choice([0, 1, length - 1, length - 1, length, length, length + 1, length + 1, 187, random.randrange(300)])


def random_writes(wanted, seed):
    """So many writes, about half of them with settings that are refused, of which any number of 32 bits may be one."""
    random = Random(seed)
    requests = []
    for _ in range(wanted):
        settings = random_calls.any_settings(random) if random.randrange(4) > 0 else accepted_settings(random)
        requests.append(Write(settings, any_room(random, len(sheet.sheet_of(settings)))))
    return requests


def gain_requests(words):
    """A sheet that is read and one that is written for each word of a gain."""
    requests = []
    for word in words:
        settings = settings_of_gain(word)
        text = sheet.sheet_of(settings)
        requests += [Read(text), Write(settings, len(text))]
    return requests


def random_requests(wanted, seed, gains):
    """So many random sheets that are read, all these words of a gain, and some thousand writes."""
    return [Read(text) for text in random_sheets(wanted, seed)] + gain_requests(gains) + random_writes(4000, seed)


# For the program, which is one process a sheet, so that every one should tell something.

def sheets_with_one_out():
    """For each setting a sheet with it below its range, where that can be written, above it, and as high as can be; and sheets with gains that are not tied."""
    sets = []
    for setting in drive.SETTINGS:
        words = [word for word in (setting.lowest - 1, setting.highest + 1, highest_on_a_sheet(setting)) if word >= 0]
        sets += [{**drive.BENCH, setting.name: word} for word in words]
    for changes in ({'speed_Ki': 129}, {'current_Ki': 255}, {'speed_Ki': 0, 'current_Ki': 0}, {'current_Kp': 4097, 'V': 0}, {'speed_Kcor': 65, 'F': 0}):
        sets.append({**drive.BENCH, **changes})
    return [sheet.sheet_of(settings) for settings in sets]


def sheets_with_one_line(line):
    """Sheets that have something else in this line, which is the first faulty one, or end there."""
    lines = lines_of(sheet.sheet_of(drive.BENCH)) + [b'']
    before, behind = b''.join(lines[:line - 1]), b''.join(lines[line:])
    others = [b'\n' + behind, b'1' * 40 + b'\n' + behind, b'1' * 41 + b'\n' + behind, b'\x1f \x7f~\x80"?\xff\r\n' + behind]
    others += [b'', b'\t', b'1' * 40, b'1' * 41, lines[line - 1][:-1]]
    return [before + other for other in others]


def program_sheets(wanted, seed):
    """Sheets for every line and for every setting, so many random ones, and some of many bytes: up to 64 kB, and about those at which the program stops."""
    random = Random(seed)
    texts = sheets_with_one_out()
    for line in range(1, 17):
        texts += sheets_with_one_line(line)
    texts += [any_sheet(random) for _ in range(wanted)]
    texts += [random_bytes(random) for _ in range(4)] + [bytes(65536), b'\n' * 65536, b'9' * 65536]
    texts += [(good_sheet(random) + b' ' * length)[:length] for length in (3071, 3072, 3073, 4096, 4097, 65536)]
    return texts
