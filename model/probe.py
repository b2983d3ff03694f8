"""The program probe, by the model: one call a line, one answer a line. README.md beside this file has the format."""

from collections import namedtuple

import drive

# The call's number is its place in this list; the names are those of the numbers that come after the record.
KINDS = ['make', 'step', 'target', 'clear']
ARGUMENTS = {'make': [], 'step': ['ia', 'ib', 'sample count'], 'target': ['wanted'], 'clear': []}

SETTING_NAMES = [setting.name for setting in drive.SETTINGS]

# A call: its kind, the record (of a make only the settings are looked at), and the numbers after it.
Call = namedtuple('Call', 'kind record arguments')


def record_names(kind):
    """The names of the settings and words that a call of this kind has in its line."""
    return SETTING_NAMES if kind == 'make' else SETTING_NAMES + drive.WORDS


def answer_names(kind, number):
    """The names of the numbers that answer a call of this kind which hands back this number."""
    if kind == 'make':
        return ['number'] + (drive.WORDS if number == 0 else [])
    if kind == 'step':
        return ['number', 'a', 'b', 'c', 'clipped', 'valpha', 'vbeta'] + drive.WORDS
    return ['number'] + drive.WORDS


def named_numbers(call):
    """The numbers of a call's line, each with its name."""
    named = [('call', KINDS.index(call.kind))]
    named += [(name, int(call.record[name])) for name in record_names(call.kind)]
    return named + list(zip(ARGUMENTS[call.kind], call.arguments))


def line_of(call):
    return joined(number for _, number in named_numbers(call))


def joined(numbers):
    return ' '.join(str(number) for number in numbers)


def call_of(numbers):
    """The call of a line's numbers, None where the line is bad."""
    if numbers is None or not 0 <= numbers[0] < len(KINDS):
        return None
    kind = KINDS[numbers[0]]
    names = record_names(kind)
    if len(numbers) != 1 + len(names) + len(ARGUMENTS[kind]):
        return None
    record = dict(zip(names, numbers[1:]))
    for name in drive.FLAGS:
        if name in record:
            if record[name] not in (0, 1):
                return None
            record[name] = record[name] == 1
    return Call(kind, record, tuple(numbers[1 + len(names):]))


def words(record):
    return [int(record[name]) for name in drive.WORDS]


def answer_of(call):
    """The numbers that answer a call."""
    if call.kind == 'make':
        number, record = drive.make(call.record)
        return [number] + (words(record) if number == 0 else [])
    if call.kind == 'step':
        answer = drive.step(call.record, *call.arguments)
        return [answer.number, *answer.compares, int(answer.clipped), *answer.voltage] + words(answer.record)
    if call.kind == 'target':
        number, record = drive.target(call.record, *call.arguments)
    else:
        number, record = drive.clear(call.record)
    return [number] + words(record)


def program(text):
    """What probe writes for the bytes that it reads."""
    written = []
    for line_number, (line, is_ended) in enumerate(drive.lines_of(text), 1):
        call = call_of(drive.numbers_of_line(line))
        if not is_ended or call is None:
            written.append('bad %d' % line_number)
            break
        written.append(joined(answer_of(call)))
    return ''.join(line + '\n' for line in written).encode()
