"""The program tests/sheets.c, by the model: sheets read and written, one request after the other. README.md beside this file has the format."""

from collections import namedtuple

import drive
import probe
import sheet

# What the program has in every byte of the room before a write; it shows so many bytes behind the room.
MARK_BYTE = b'\xa5'
BEHIND = 8

# The names of the words that answer a request.
ANSWERS = {'read': ['number', 'line'] + probe.SETTING_NAMES, 'write': ['number', 'length', 'room']}

# A request: a text to read, or settings to write into room for so many bytes.
Read = namedtuple('Read', 'text')
Write = namedtuple('Write', 'settings room')


def kind_of(request):
    return 'read' if isinstance(request, Read) else 'write'


def bytes_of(request):
    """A request as the program reads it."""
    if isinstance(request, Read):
        return b'r %d\n' % len(request.text) + request.text
    return b'w %s\n' % probe.joined((request.room, *request.settings.values())).encode()


def handed_back(reading):
    """The settings that the call in C hands back: with a refusal zeros, which start no drive."""
    return {setting.name: 0 for setting in drive.SETTINGS} if reading.settings is None else reading.settings


def answer_of(request):
    """The line that answers a request."""
    if isinstance(request, Read):
        reading = sheet.read(request.text)
        return probe.joined((reading.number, reading.line, *handed_back(reading).values()))
    writing = sheet.write(request.settings, MARK_BYTE * request.room)
    return '%d %d %s' % (writing.number, writing.length, (writing.room + MARK_BYTE * BEHIND).hex())
