#!/usr/bin/env python3
"""A second gateway, written from document 01, tickets 4 and 5 of document 02 and document 000, and from nothing else but the language and the
hunting of `link`, which are those of docs/gateway.md: gateway.py FILE answers FILE's calls.

It shares no code and no method with the crates: coding.py has AL1M, table.py the entries of the table, packets.py the packets of level 2;
here are the channels, whose octets are lists of their own, and the calls.
"""
import re
import sys

from coding import check, encode, receive, sent_length
from packets import pack, packets_in, unpack
from refusals import Malformed, Refused, refuse_if
from table import decimal, keeps_rules, read_descriptor, slots

LONGEST_LINE = 16384
LONGEST_UNIT = 1024


# Channels

class Channel:
    def __init__(self, segmentable):
        self.segmentable = segmentable
        self.held, self.waiting = [], []
        self.sent, self.expected = 0, 0
        self.failed = 0  # units since the last accepted one, at most 127


class Gateway:
    def __init__(self):
        self.channels = {0: Channel(True)}
        self.table = {0: [(0, None)]}

    def channel(self, n):
        refuse_if(n not in self.channels, 5)
        return self.channels[n]

    def open(self, n, segmentable):
        refuse_if(n in self.channels, 13)
        refuse_if(len(self.channels) == 16, 12)
        self.channels[n] = Channel(segmentable)

    def close(self, n):
        self.channel(n)
        refuse_if(n == 0, 14)
        del self.channels[n]

    def reset(self, n):
        c = self.channel(n)
        c.held, c.sent, c.expected, c.failed = [], 0, 0, 0

    def entry(self, code, elements):
        refuse_if(code > 15, 4)
        refuse_if(code == 0, 14)
        refuse_if(not keeps_rules(elements), 10)
        self.table[code] = elements

    def post(self, n, unit):
        refuse_if(not 1 <= len(unit) <= LONGEST_UNIT, 2)
        c = self.channel(n)
        refuse_if(c.waiting, 11)
        c.waiting = list(unit)

    def send(self, n, numbered, unit, room):
        c = self.channel(n)
        whole = ([c.sent] if numbered else []) + unit
        refuse_if(not unit or len(whole) + 1 > LONGEST_UNIT, 2)
        refuse_if(room < len(whole) + 1, 3)
        if numbered:
            c.sent = (c.sent + 1) % 256
        return whole + check(whole, 8)

    def take(self, n, numbered, whole):
        """Badge, missing and unit, or None for a discard."""
        c = self.channel(n)
        refuse_if(not numbered + 2 <= len(whole) <= LONGEST_UNIT, 2)
        unit = whole[int(numbered):-1]
        good = check(whole[:-1], 8) == whole[-1:]
        if not numbered:
            return 0 if good else 3, 0, unit
        if not good:
            c.failed = min(127, c.failed + 1)
            return 3, 0, unit
        past = (whole[0] - c.expected) % 256
        if past > 127:
            return None
        missing = max(0, past - c.failed)
        c.expected, c.failed = (whole[0] + 1) % 256, 0
        return 0, missing, unit

    def demux(self, code, mark, payload, room_octets, room_units):
        """The finished units: channel and octets of each."""
        refuse_if(len(payload) > 255, 2)
        refuse_if(code not in self.table, 4)
        pieces, at = [], 0  # of each slot that has octets: its channel and these
        for n, length in slots(self.table[code]):
            if at == len(payload):
                break
            end = len(payload) if length is None else min(at + length, len(payload))
            pieces.append((n, payload[at:end]))
            at = end
        refuse_if(at < len(payload), 6)
        refuse_if(any(n not in self.channels for n, _ in pieces), 5)
        refuse_if(mark and (not pieces or not self.channels[pieces[-1][0]].segmentable), 7)
        held = {n: list(c.held) for n, c in self.channels.items()}
        units = []
        for n, octets in pieces:
            if self.channels[n].segmentable:
                held[n] += octets
            else:
                units.append((n, octets))
        refuse_if(any(len(h) > LONGEST_UNIT for h in held.values()), 8)
        if mark:
            n = pieces[-1][0]
            units.append((n, held[n]))
            held[n] = []
        refuse_if(sum(len(u) for _, u in units) > room_octets or len(units) > room_units, 3)
        for n, c in self.channels.items():
            c.held = held[n]
        return units

    def link(self, octets):
        """Of each packet of a stream the finished units, or the refusal; a refusal of each gap."""
        for what in packets_in(octets):
            if isinstance(what, Refused):
                yield what
                continue
            code, mark, payload, _ = what
            try:
                yield self.demux(code, mark, payload, 10 ** 9, 10 ** 9)
            except Refused as r:
                yield r

    def mux(self, code, room, lent):
        """The mark and the payload."""
        refuse_if(room > 255, 2)
        refuse_if(code not in self.table, 4)
        refuse_if(lent < room, 3)
        payload, taken, mark = [], {}, False
        for n, length in slots(self.table[code]):
            left = room - len(payload)
            if left == 0:
                break
            c = self.channel(n)
            waiting = c.waiting[taken.get(n, 0):]
            if not c.segmentable:
                if not waiting or len(waiting) > left or (length is not None and len(waiting) > length):
                    break
                payload += waiting
                taken[n] = len(c.waiting)
                if length is None or len(waiting) < length:
                    break
            else:
                part = waiting[:left if length is None else min(left, length)]
                payload += part
                taken[n] = taken.get(n, 0) + len(part)
                if part and len(part) == len(waiting):
                    mark = True
                    break
                if length is None or len(part) < length:
                    break
        refuse_if(not payload, 9)
        for n, k in taken.items():
            self.channels[n].waiting = self.channels[n].waiting[k:]
        return mark, payload


# The calls

def malformed_if(test):
    if test:
        raise Malformed


def number(word, most=4294967295):
    malformed_if(not re.fullmatch('[0-9]+', word) or decimal(word) > most)
    return decimal(word)


def octets(word):
    if word == '-':
        return []
    malformed_if(not re.fullmatch('([0-9A-Fa-f]{2})+', word))
    return list(bytes.fromhex(word))


def choice(word, first, second):
    malformed_if(word not in (first, second))
    return word == first


def tail(words, name, count, otherwise):
    """The numbers behind a name at the end of a line, or `otherwise` where there are none."""
    if not words:
        return otherwise
    malformed_if(len(words) != count + 1 or words[0] != name)
    return [number(w) for w in words[1:]]


def spell(o):
    return bytes(o).hex().upper() or '-'


def spell_units(units):
    return ['units %d' % len(units)] + ['unit %d %s' % (n, spell(u)) for n, u in units]


def spell_refusal(r):
    return ['refused %d' % r.args[0]]


def answer(g, line):
    words = [w for w in line.split(' ') if w]
    malformed_if(not words)
    name, args = words[0], words[1:]

    def counted(least, most=None):
        malformed_if(not least <= len(args) <= (least if most is None else most))

    if name == 'length':
        counted(3)
        width, e, t = [number(a) for a in args]
        return ['length %d' % sent_length(t, width, e)]
    if name == 'encode':
        counted(3, 5)
        width, e, o = number(args[0]), number(args[1]), octets(args[2])
        room, = tail(args[3:], 'room', 1, [255])
        return ['sent ' + spell(encode(o, width, e, room))]
    if name == 'receive':
        counted(3, 6)
        width, e, o = number(args[0]), number(args[1]), octets(args[2])
        badge, unit, places = receive(o, width, e, *tail(args[3:], 'room', 2, [255, 127]))
        return ['badge %d changed %d unit %s at %s' % (badge, len(places), spell(unit), ','.join(map(str, places)) or '-')]
    if name == 'al1':
        counted(1)
        o = octets(args[0])
        refuse_if(not 1 <= len(o) <= LONGEST_UNIT, 2)
        return ['badge 4 changed 0 unit ' + spell(o)]
    if name == 'open':
        counted(2)
        g.open(number(args[0], 65535), choice(args[1], 'segmentable', 'whole'))
        return ['done']
    if name in ('close', 'reset'):
        counted(1)
        (g.close if name == 'close' else g.reset)(number(args[0], 65535))
        return ['done']
    if name == 'entry':
        malformed_if(len(args) < 2)
        code = number(args[0])
        text = re.match(' *entry +[0-9]+ +(.*?) *$', line).group(1)
        g.entry(code, read_descriptor(text))
        return ['done']
    if name == 'post':
        counted(2)
        g.post(number(args[0], 65535), octets(args[1]))
        return ['done']
    if name == 'mux':
        counted(2, 4)
        code, room = number(args[0]), number(args[1])
        lent, = tail(args[2:], 'lent', 1, [255])
        mark, payload = g.mux(code, room, lent)
        return ['payload %d %s' % (mark, spell(payload))]
    if name == 'demux':
        counted(3, 6)
        code, mark, o = number(args[0]), number(args[1], 1), octets(args[2])
        room = tail(args[3:], 'room', 2, [10 ** 9, 10 ** 9])
        return spell_units(g.demux(code, mark, o, *room))
    if name == 'pack':
        counted(3, 7)
        code, mark, o, rest = number(args[0]), number(args[1], 1), octets(args[2]), args[3:]
        opens = 0
        if rest[:1] == ['after']:
            malformed_if(len(rest) < 2)
            opens, rest = number(rest[1], 1), rest[2:]
        room, = tail(rest, 'room', 1, [10 ** 9])
        return ['packet ' + spell(pack(opens, code, mark, o, room))]
    if name == 'unpack':
        counted(1)
        code, mark, payload, further = unpack(octets(args[0]))
        return ['code %d mark %d payload %s next %d' % (code, mark, spell(payload), further)]
    if name == 'link':
        counted(1)
        return [a for r in g.link(octets(args[0])) for a in (spell_refusal(r) if isinstance(r, Refused) else spell_units(r))]
    if name == 'send':
        counted(3, 5)
        n, numbered, o = number(args[0], 65535), choice(args[1], 'numbered', 'plain'), octets(args[2])
        room, = tail(args[3:], 'room', 1, [LONGEST_UNIT])
        return ['sent ' + spell(g.send(n, numbered, o, room))]
    if name == 'take':
        counted(3)
        r = g.take(number(args[0], 65535), choice(args[1], 'numbered', 'plain'), octets(args[2]))
        return ['discarded'] if r is None else ['badge %d missing %d unit %s' % (r[0], r[1], spell(r[2]))]
    raise Malformed


def line_answers(g, line):
    """The lines that answer a line."""
    if len(line) > LONGEST_LINE:
        return ['malformed']
    if not line or line.startswith('#'):
        return []
    try:
        return answer(g, line)
    except Refused as r:
        return spell_refusal(r)
    except Malformed:
        return ['malformed']


def answers(script):
    g = Gateway()
    return [a for line in script.split('\n') for a in line_answers(g, line)]


if __name__ == '__main__':
    with open(sys.argv[1], encoding='latin-1', newline='') as f:
        for a in answers(f.read()):
            print(a)
