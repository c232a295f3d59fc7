#!/usr/bin/env python3
"""random_calls.py SEED COUNT: a script of calls that come from a random source, for the gateway and its model to answer alike."""
import random
import sys

import gateway as model
import packets

CHANNELS = [0, 1, 2, 3, 4, 7, 9, 65535]
CODES = list(range(6)) + [15, 16]


def octets(source, most):
    n = source.choice([0, 1, 2, 3, source.randint(0, most)])
    return model.spell(source.randbytes(n))


def element(source, depth, last):
    times = ' UCF' if last and source.random() < 0.7 else source.choice(['1', '2', '3', str(source.randint(0, 70)), '65536'] if source.random() < 0.1 else ['1', '2', '3', '5'])
    if depth < 4 and source.random() < 0.3:
        inner = [element(source, depth + 1, source.random() < 0.02) for _ in range(source.randint(1 if source.random() < 0.1 else 2, 4))]
        return '{%s,RC%s}' % (','.join(inner), times)
    return '{LCN%d,RC%s}' % (source.choice(CHANNELS[:6] if source.random() < 0.95 else CHANNELS), times)


def descriptor(source):
    n = source.randint(1, 4)
    return ','.join(element(source, 1, k == n - 1) for k in range(n))


def damaged(source, word, most):
    word = list(word)
    for place in source.sample(range(len(word)), min(len(word), source.randint(0, most))):
        word[place] ^= source.randint(1, 255)
    return word


def coded(source):
    width, e = source.choice([0, 8, 16]), source.choice([0, 1, 2, 3, 5, 8])
    unit = list(source.randbytes(source.randint(1, 40)))
    if source.random() < 0.2:
        return 'encode %d %d %s' % (width, e, model.spell(unit))
    word = damaged(source, model.encode(unit, width, e, 255), e + 2)
    room = ' room %d %d' % (source.randint(max(0, len(word) - 1), len(word) + 1), source.randint(max(0, e - 1), e + 1))
    return 'receive %d %d %s' % (width, e, model.spell(word)) + (room if source.random() < 0.3 else '')


def numbered(source):
    kind = source.choice(['numbered', 'plain'])
    whole = list(source.randbytes(source.randint(1, 6)))
    return 'take %d %s %s' % (source.choice(CHANNELS), kind, model.spell(whole + (model.check(whole, 8) if source.random() < 0.9 else [0])))


def captions(source):
    """Units that AL2 sent one after another with their numbers: each is taken as it was sent, with up to two octets changed, twice, or not at
    all; other calls come between, most of them on the channel."""
    channel, number = source.choice(CHANNELS), source.choice([0, source.randint(0, 255)])
    lines = ['reset %d' % channel] if source.random() < 0.3 else []
    harmed = source.choice([0.1, 0.5, 0.9])  # the part of which half is changed and half lost
    for _ in range(source.choice([3, 10, 30, 140])):
        whole = [number] + list(source.randbytes(source.randint(1, 4)))
        whole += model.check(whole, 8)
        number = (number + 1) % 256
        fate = source.random()
        word = whole if fate >= harmed else damaged(source, whole, 2) if fate < harmed / 2 else None
        if word:
            lines += ['take %d numbered %s' % (channel, model.spell(word))] * source.choice([1, 1, 1, 1, 2])
        if source.random() < 0.05:
            lines.append(source.choice([numbered(source), 'send %d numbered 55' % channel, 'take %d plain 1000' % channel, 'reset %d' % channel]))
    return lines


def wrong_bits(source, octets, count):
    """Octets of which so many bits are wrong."""
    word = int.from_bytes(bytes(octets), 'big')
    for k in source.sample(range(8 * len(octets)), count):
        word ^= 1 << k
    return list(word.to_bytes(len(octets), 'big'))


def noise(source):
    """Octets that nobody sent, flags among them."""
    flags = source.choice(packets.FLAGS) if source.random() < 0.3 else []
    return list(source.randbytes(source.choice([1, 2, source.randint(0, 30)]))) + flags + list(source.randbytes(source.randint(0, 6)))


def payload(source):
    """A payload; one may look like a packet."""
    kind = source.random()
    if kind < 0.15:
        return []
    if kind < 0.25:
        return packets.pack(0, source.randint(0, 5), source.randint(0, 1), list(source.randbytes(source.randint(0, 9))), 999)
    return list(source.randbytes(source.randint(1, 12) if kind < 0.9 else source.choice([254, 255, 256, source.randint(13, 253)])))


def behind_flag(source):
    """A packet from its header on: often whole, else with wrong bits in its header or its closing flag, or a length that is not used."""
    octets, code = payload(source), source.choice(CODES[:-1])
    if source.random() < 0.1:
        octets, code = [], 0
    said = 255 if len(octets) > 254 or source.random() < 0.04 else len(octets)
    header = wrong_bits(source, packets.header(code, said), source.choice([0, 0, 0, 1, 2, 3, 3, 4, 5, 6]))
    closing = source.choice(packets.FLAGS)
    return header + octets + (wrong_bits(source, closing, source.randint(1, 3)) if source.random() < 0.07 else closing)


def stream(source):
    """Packets one after another, with noise before, between and behind, and cut short."""
    octets = (noise(source) if source.random() < 0.15 else []) + source.choice(packets.FLAGS)
    if source.random() < 0.05:
        octets = wrong_bits(source, octets, 1)
    for _ in range(source.choice([0, 1, 1, 2, 3, 6])):
        octets += behind_flag(source)
        if source.random() < 0.07:
            octets += noise(source) + source.choice(packets.FLAGS)
    if source.random() < 0.15:
        octets += noise(source)
    return octets[:source.randint(0, len(octets))] if source.random() < 0.1 else octets


def packed(source, code):
    octets = payload(source)
    code = 4294967295 if source.random() < 0.02 else code
    opens = ' after %d' % source.randint(0, 1) if source.random() < 0.5 else ''
    room = ' room %d' % source.randint(len(octets) + 5, len(octets) + 8) if source.random() < 0.3 else ''
    return 'pack %d %d %s%s%s' % (code, source.randint(0, 1), model.spell(octets), opens, room)


def call(source):
    channel, code = source.choice(CHANNELS), source.choice(CODES)
    kind = source.choices(range(13), [3, 1, 1, 4, 8, 12, 12, 2, 3, 4, 3, 5, 10])[0]
    if kind == 0:
        return 'open %d %s' % (channel, source.choice(['segmentable', 'whole']))
    if kind == 1:
        return 'close %d' % channel
    if kind == 2:
        return 'reset %d' % channel
    if kind == 3:
        return 'entry %d %s' % (code, descriptor(source))
    if kind == 4:
        return 'post %d %s' % (channel, octets(source, 60 if source.random() < 0.9 else 1100))
    if kind == 5:
        room = source.choice([0, 1, 5, source.randint(0, 256), 255])
        return 'mux %d %d' % (code, room) + (' lent %d' % source.randint(0, 255) if source.random() < 0.1 else '')
    if kind == 6:
        text = 'demux %d %d %s' % (code, source.random() < 0.4, octets(source, 60 if source.random() < 0.7 else 256))
        return text + (' room %d %d' % (source.randint(0, 300), source.randint(0, 9)) if source.random() < 0.1 else '')
    if kind == 7:
        return 'send %d %s %s' % (channel, source.choice(['numbered', 'plain']), octets(source, 30))
    if kind == 8:
        return numbered(source)
    if kind == 9:
        return coded(source)
    if kind == 10:
        return packed(source, code)
    return '%s %s' % ('unpack' if kind == 11 else 'link', model.spell(stream(source)))


def spoilt(source, line):
    """A line with a few of its characters changed, left out, doubled or put in, so that many have not the form."""
    text = list(line)
    for _ in range(source.choice([1, 1, 2, 4])):
        k = source.randrange(len(text) + 1)
        text[k:k + source.choice([0, 0, 1, 1, 2])] = source.choice(['', source.choice(' {},LCNRUF0123456789aB-#\t\r\0\xff'), ''.join(text[k:k + 3])])
    return ''.join(text)


def script(source, count, spoilt_part=0.2):
    """A script of so many calls, some of them a row of captions, and of its lines that part is spoilt."""
    lines = ['open 1 whole', 'open 2 segmentable', 'open 3 segmentable', 'open 4 whole']
    for _ in range(count):
        for line in captions(source) if source.random() < 0.01 else [call(source)]:
            lines.append(spoilt(source, line) if source.random() < spoilt_part else line)
    return ''.join(line + '\n' for line in lines)


if __name__ == '__main__':
    sys.stdout.buffer.write(script(random.Random(int(sys.argv[1])), int(sys.argv[2])).encode('latin-1'))
