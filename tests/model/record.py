#!/usr/bin/env python3
"""A second keeper of call records, written from request 1 of document 02 and from nothing else.

record.py write UNITS RECORD   writes the list UNITS as the record RECORD, or says why not
record.py read RECORD          the list that RECORD holds, or the refusal
Exit status: 0 unless the answer is a refusal.

A list is text in the gateway's notation, a line `CHANNEL BADGE CHANGED OCTETS` for each unit. The writer lays a list out, and the reader
takes a file apart by the request's rules one after another; neither uses the other, so that each can be tried by the other.
"""
import collections
import re
import sys

import gateway
from gateway import Malformed, Refused, malformed_if, refuse_if

HEAD = 10
PLACES, PLACE = 16, 14
TRAILER = PLACES * PLACE + 12
MOST = 1048576  # octets before the trailer
NONE = 0xFFFFFFFF  # where there is no unit to name
MARK = 0x48323233
SIZES = [2, 1, 1, 2, 4]  # of a unit's numbers: channel, badge, changed, length, offset of its channel's previous unit
PLACE_SIZES = [2, 4, 4, 4]  # of a place's: channel, offset of its last unit, units, those out of reach or with a failed check

Unit = collections.namedtuple('Unit', 'channel badge changed octets')


def in_range(u):
    least, most = {1: (1, 127), 3: (0, 127)}.get(u.badge, (0, 0))
    return u.channel <= 65535 and u.badge <= 4 and least <= u.changed <= most and 1 <= len(u.octets) <= 1024


def is_damaged(u):
    return u.badge in (2, 3)


# Writing

def spread(numbers, sizes):
    """Numbers, high octet first. One too large for its place is cut, so that a list that no record may hold can be laid out too."""
    return b''.join((n % 256 ** size).to_bytes(size, 'big') for n, size in zip(numbers, sizes))


def starts(units):
    """The offset of each unit, and behind them that of the trailer."""
    found = [0]
    for u in units:
        found.append(found[-1] + HEAD + len(u.octets))
    return found


def by_channel(units):
    """Of each channel the numbers of its units, ascending."""
    own = {}
    for k, u in enumerate(units):
        own.setdefault(u.channel, []).append(k)
    return own


def laid_out(units):
    """The octets of a list as a record, whether or not the list may be written."""
    offset, own = starts(units), by_channel(units)
    back = {}
    for numbers in own.values():
        back.update(zip(numbers[1:], numbers))
    parts = []
    for k, u in enumerate(units):
        parts.append(spread([u.channel, u.badge, u.changed, len(u.octets), offset[back[k]] if k in back else NONE], SIZES) + u.octets)
    places = [(c, offset[own[c][-1]], len(own[c]), sum(is_damaged(units[k]) for k in own[c])) for c in sorted(own)]
    for place in (places + [(0, NONE, 0, 0)] * PLACES)[:PLACES]:
        parts.append(spread(place, PLACE_SIZES))
    return b''.join(parts) + spread([len(units), offset[-1], MARK], [4, 4, 4])


def write(units):
    """The record of a list."""
    refuse_if(not all(in_range(u) for u in units), 15)
    refuse_if(len({u.channel for u in units}) > PLACES, 12)
    refuse_if(sum(HEAD + len(u.octets) for u in units) > MOST, 2)
    return laid_out(units)


# Reading

def numbers_at(file, at, sizes):
    found = []
    for size in sizes:
        found.append(int.from_bytes(file[at:at + size], 'big'))
        at += size
    return found


def units_before(file, end):
    """The units from the front to the trailer, and where each channel's last one starts."""
    units, last, at = [], {}, 0
    while at < end:
        refuse_if(end - at < HEAD, 15)
        channel, badge, changed, length, back = numbers_at(file, at, SIZES)
        refuse_if(end - at < HEAD + length, 15)
        u = Unit(channel, badge, changed, file[at + HEAD:at + HEAD + length])
        refuse_if(not in_range(u) or back != last.get(channel, NONE), 15)
        units.append(u)
        last[channel] = at
        at += HEAD + length
    return units, last


def read(file):
    """The units of a record."""
    end = len(file) - TRAILER
    refuse_if(not 0 <= end <= MOST, 15)
    units, last = units_before(file, end)
    refuse_if(len(last) > PLACES, 15)
    held = collections.Counter(u.channel for u in units)
    damaged = collections.Counter(u.channel for u in units if is_damaged(u))
    channels = sorted(last)
    for k in range(PLACES):
        place = numbers_at(file, end + k * PLACE, PLACE_SIZES)
        c = channels[k] if k < len(channels) else None
        refuse_if(place != ([0, NONE, 0, 0] if c is None else [c, last[c], held[c], damaged[c]]), 15)
    refuse_if(numbers_at(file, end + PLACES * PLACE, [4, 4, 4]) != [len(units), end, MARK], 15)
    return units


# Lists as text

LINE = re.compile(' *([0-9]+) +([0-9]+) +([0-9]+) +(-|([0-9A-Fa-f]{2})+) *')


def unit_of(line):
    """The unit of a line. A number may be of any length here: one too large for its place makes a unit out of range."""
    found = LINE.fullmatch(line)
    malformed_if(not found)
    channel, badge, changed, octets, _ = found.groups()
    return Unit(gateway.decimal(channel), gateway.decimal(badge), gateway.decimal(changed), bytes.fromhex(octets.replace('-', '')))


def units_of(text):
    """The units of a text; a malformed line is told by its number, from 1. A line may have any length, unlike a gateway's."""
    units = []
    for k, line in enumerate(text.split('\n'), 1):
        if line and line[0] != '#':
            try:
                units.append(unit_of(line))
            except Malformed:
                raise Malformed(k) from None
    return units


def line_of(u):
    return '%d %d %d %s' % (u.channel, u.badge, u.changed, gateway.spell(u.octets))


def text_of(units):
    return ''.join(line_of(u) + '\n' for u in units)


# The commands

def write_answer(text):
    """The answer to a list, and its record, None where there is none to be written."""
    try:
        units = units_of(text)
        file = write(units)
    except Malformed as m:
        return 'malformed %d' % m.args[0], None
    except Refused as r:
        return 'refused %d' % r.args[0], None
    return 'units %d octets %d' % (len(units), len(file)), file


def read_answer(file):
    """The answer to a file where it is refused, None where not, and its units."""
    try:
        return None, read(file)
    except Refused as r:
        return 'refused %d' % r.args[0], []


def load(name):
    if name == '-':
        return sys.stdin.buffer.read()
    with open(name, 'rb') as f:
        return f.read()


def main(command, name, *to):
    if command == 'write':
        answer, file = write_answer(load(name).decode('latin-1'))
        if file is not None:
            with open(to[0], 'wb') as f:
                f.write(file)
        print(answer)
        return 1 if file is None else 0
    answer, units = read_answer(load(name))
    print(answer or text_of(units) + '# units %d' % len(units))
    return 1 if answer else 0


if __name__ == '__main__':
    sys.dont_write_bytecode = True
    sys.exit(main(*sys.argv[1:]))
