#!/usr/bin/env python3
"""The demonstration's call by the model of gateway.py: what crates/demo should print."""
import gateway as model
import packets

ROUNDS, ROOM = 100, 90
UNITS = {0: 12, 1: 20, 2: 30, 3: 100, 4: 10}
AL1M = {1: (8, 2), 3: (16, 8), 4: (8, 1)}
LAYERS = ['AL1', 'AL1M check 8, e 2', 'AL2 numbered', 'AL1M check 16, e 8', 'AL1M check 8, e 1']
ENTRIES = ['{LCN1,RC25},{{LCN2,RC1},{LCN3,RC3},RC UCF}', '{LCN4,RC13},{{LCN2,RC2},{LCN3,RC6},{LCN0,RC1},RC UCF}', '{LCN3,RC UCF}', '{LCN2,RC UCF}']

BECAME = {'undamaged': 'came with an undamaged header', 'wrong bits': 'were read through wrong bits of the header, at most three',
          'another': 'were read as another packet', 17: 'were refused 17: no header within three bits of what came',
          15: 'were refused 15: no closing flag where the header says', 2: 'were refused 2: a length of 255'}


def end():
    g = model.Gateway()
    for n in range(1, 5):
        g.open(n, n not in (1, 4))
    for code, text in enumerate(ENTRIES, 1):
        g.entry(code, model.read_descriptor(text))
    return g


def unit(channel, round_):
    return [(channel * 101 + round_ * 7 + i * 31) % 256 for i in range(UNITS[channel])]


def noises():
    x = 1
    while True:
        x = x * 16807 % (2 ** 31 - 1)
        yield x


def damage(packet, length, noise):
    """Turns bits of a packet's header, hits octets of its payload and leaves its flags: how many bits, and how many octets."""
    wrong = damaged = 0
    for k, x in zip(range(24), noise):
        if x % 20 == 0:
            packet[2 + k // 8] ^= 1 << k % 8
            wrong += 1
    for k, x in zip(range(length), noise):
        if x % 24 == 0:
            packet[5 + k] ^= x // 24 % 255 + 1
            damaged += 1
    return wrong, damaged


def call():
    near, far, noise = end(), end(), noises()
    octets = damaged = differs = 0
    became = dict.fromkeys(BECAME, 0)
    opens = False
    table = {n: [0] * 7 for n in UNITS}  # units, the five badges, octets repaired
    example = []

    def take(channel, whole):
        """Badge, unit and changed places, or None where the layer hands nothing up."""
        try:
            if channel in AL1M:
                return model.receive(whole, *AL1M[channel], 255, 127)
            if channel == 0:
                return 4, whole, []
            taken = far.take(channel, True, whole)
        except model.Refused:
            return None
        return taken and (taken[0], taken[2], [])

    def read(sent, wrong, packet):
        """What the far end demultiplexes of a packet."""
        try:
            got = packets.unpack(packet)[:3]
        except model.Refused as refusal:
            became[refusal.args[0]] += 1
            return []
        as_sent = (got[0], got[1], len(got[2])) == sent
        became['another' if not as_sent else 'wrong bits' if wrong else 'undamaged'] += 1
        try:
            return far.demux(*got, 1280, 255)
        except model.Refused:
            return []

    for round_ in range(ROUNDS):
        for n in UNITS:
            content = unit(n, round_)
            if n in AL1M:
                content = model.encode(content, *AL1M[n], 255)
            elif n == 2:
                content = near.send(n, True, content, 255)
            near.post(n, content)
        for code in (1, 2, 3, 4, 0):
            while True:
                try:
                    mark, payload = near.mux(code, ROOM, 255)
                except model.Refused:
                    break
                packet = packets.pack(opens, code, mark, payload, 261)
                opens = mark
                wrong, hits = damage(packet, len(payload), noise)
                octets += len(payload)
                damaged += hits
                for n, whole in read((code, mark, len(payload)), wrong, packet):
                    row = table[n]
                    row[0] += 1
                    taken = take(n, whole)
                    if taken is None:
                        continue
                    badge, content, places = taken
                    row[1 + badge] += 1
                    row[6] += len(places) if badge == 1 else 0
                    differs += badge in (0, 1) and content != unit(n, round_)
                    if not example and (n, badge, len(places)) == (1, 1, 2):
                        example = shown(whole, model.encode(unit(n, round_), *AL1M[n], 255), places)
    return became, octets, damaged, table, differs, example


def shown(received, sent, places):
    """A unit as it came and as it was sent, and marks below what was repaired."""
    def spelt(word):
        return ''.join(' %02X' % o for o in word)
    marks = ''.join(' ^^' if k in places else '   ' for k in range(places[-1] + 1))
    return ['A damaged unit of channel 1: the octets at places %s, counted from 0, were repaired.' % ','.join(map(str, places)), '',
            '  received' + spelt(received), '  repaired' + spelt(sent), '          ' + marks, '']


def text():
    became, octets, damaged, table, differs, example = call()
    lines = example + ['A call: %d units on each channel, in %d packets; %d octets of payload on the way, %d of them damaged.'
                       % (ROUNDS, sum(became.values()), octets, damaged), 'Flags came intact, headers with some bits wrong.', '', 'packets']
    lines += ['%7d  %s' % (n, BECAME[what]) for what, n in became.items()]
    lines += ['', 'channel  layer               units  clean  corrected  out of reach  check failed  unchecked  octets repaired']
    lines += ['%7d  %-19s%6d%7d%11d%14d%14d%11d%17d' % (n, LAYERS[n], *table[n]) for n in table]
    refused = sum(became[k] for k in (17, 15, 2))
    lines += ['', 'The %d refused packets were lost with what they carried. Where one carried the end of a unit, the channel has' % refused,
              'a unit fewer, and what had come of that unit was held for the next.']
    lines += ['', 'Units with a green badge (clean or corrected) that differ from what was sent: %s.' % (differs or 'none')]
    return ''.join(line + '\n' for line in lines)


if __name__ == '__main__':
    print(text(), end='')
