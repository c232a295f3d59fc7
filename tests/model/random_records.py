#!/usr/bin/env python3
"""Compares a program that writes and reads records with the model of record.py, on lists and files from a random source.

random_records.py SEED FIRST LAST WORD ...   the cases FIRST to LAST of SEED, answered by the program that the WORDs run

A case is a list of units, written, read and written again; or a file, read and, where it is a record, written again: a record with some
damage, a short file, or one of about the largest size. The first cases are the largest lists and files, one each; a case depends on the
seed and its own number alone. The first difference ends the comparison: its files stay, and the words that repeat the case are printed.
Exit status: 0 all agree, 1 something differs.
"""
import os
import random
import shutil
import subprocess
import sys
import tempfile

sys.dont_write_bytecode = True
import random_calls  # noqa: E402
import record as model  # noqa: E402
from record import HEAD, MOST, NONE, PLACE, PLACES, TRAILER, Unit  # noqa: E402

LONGEST = MOST + TRAILER
SHORTEST_UNIT = HEAD + 1
LONGEST_UNIT = HEAD + 1024


# Lists

def channels(source, count):
    """So many channels, often close to each other, or such that the order of their two octets matters."""
    near = [0, 1, 2, 3, 4, 5, 127, 128, 254, 255, 256, 257, 511, 512, 1280, 32767, 32768, 65279, 65280, 65534, 65535]
    return source.sample(near if source.random() < 0.6 else range(65536), count)


def changed(source, badge):
    least, most = {1: (1, 127), 3: (0, 127)}.get(badge, (0, 0))
    return source.choice([least, most, source.randint(least, most)])


def octets(source):
    length = source.choice([1, 1, 2, 3, source.randint(1, 12), source.randint(1, 40)])
    if source.random() < 0.02:
        length = source.choice([255, 256, 257, 1023, 1024, source.randint(1, 1024)])
    return source.choice([source.randbytes(length), source.randbytes(length), bytes(length), b'\xff' * length, (b'H223' * 256)[:length]])


def unit(source, own):
    badge = source.randint(0, 4)
    return Unit(source.choice(own), badge, changed(source, badge), octets(source))


def units(source):
    """A list that a record may hold."""
    own = channels(source, source.choice([1, 2, 3, 16, source.randint(1, 16)]))
    count = source.choice([0, 1, 2, 3, 5, source.randint(0, 20), source.randint(0, 40)])
    if source.random() < 0.05:
        count = source.randint(0, 300)
    return [unit(source, own) for _ in range(count)]


def put(source, items, item):
    """The items with one more somewhere, often the last."""
    k = source.choice([len(items), source.randint(0, len(items))])
    return items[:k] + [item] + items[k:]


def out_of_range(source, own):
    """A unit that is out of range by one of its parts, often by one only."""
    u, kind = unit(source, own), source.choice(['channel', 'badge', 'changed', 'changed', 'changed', 'octets'])
    if kind == 'channel':
        return u._replace(channel=source.choice([65536, 65536, 65537, 131072, 4294967295, 4294967296, 10 ** 11]))
    if kind == 'badge':
        return u._replace(badge=source.choice([5, 5, 5, 6, 128, 255, 256, 257, 4294967296, 4294967297]))
    if kind == 'octets':
        return u._replace(octets=source.randbytes(source.choice([0, 0, 1025, 1025, 1026, 2048])))
    badge = source.choice([0, 1, 1, 1, 2, 3, 3, 4])
    wrong = {1: [0, 0, 0, 128, 128, 256, 257, 4294967297], 3: [128, 128, 255, 256, 4294967296]}
    return u._replace(badge=badge, changed=source.choice(wrong.get(badge, [1, 1, 2, 127, 128, 255, 256, 4294967296])))


def seventeen(source, items):
    """The list with units on seventeen channels or more."""
    for c in source.sample(range(65536), source.choice([17, 17, 18, 20])):
        items = put(source, items, unit(source, [c]))
    return items


def filled(source, length, own=None, short=False):
    """A list of so many octets before the trailer, of units as long or as short as they may be. They are few over and over, as long lists
    take long to make; only their octets are always others."""
    own, size = own or channels(source, source.randint(1, 16)), SHORTEST_UNIT if short else LONGEST_UNIT
    count = max((length - SHORTEST_UNIT) // size, 0)
    left = length - count * size
    sizes = [size] * count + ([left] if left <= LONGEST_UNIT else [left - SHORTEST_UNIT, SHORTEST_UNIT])
    few, content = [unit(source, own) for _ in range(61)], source.randbytes(length)
    items, at = [], 0
    for k, size in enumerate(sizes):
        c, badge, count, _ = few[k % 61]
        items.append(Unit(c, badge, count, content[at:at + size - HEAD]))
        at += size - HEAD
    return items


# Lists as text

def spelt(source, u):
    """A unit's line, with spaces, zeros and small letters where there may be some."""
    words = model.line_of(u).split(' ')
    if source.random() < 0.2:
        words = ['0' * source.choice([0, 1, 12]) + w for w in words[:3]] + [source.choice([words[3].lower(), words[3].title()])]
    line = ' '.join(words)
    if source.random() < 0.1:
        line = ' ' * source.randint(0, 2) + line.replace(' ', ' ' * source.randint(1, 3)) + ' ' * source.randint(0, 2)
    return line


def malformed(source, u):
    """A line that is none, or that nearly is none: what it is, the model says."""
    words = spelt(source, u).split()
    k = source.randrange(4)
    kind = source.randrange(7)
    if kind == 0:
        del words[k]
    elif kind == 1:
        words.insert(k, source.choice(['0', '1', '00', '-', '#']))
    elif kind == 2:
        words[k] = source.choice(['-', '+', '-0', '0x', '', '--', '$', '.']) + words[k] + source.choice(['', '', 'G', '.', '0', '-', '/', ':', '@', '`'])
    elif kind == 3:
        words[k] += source.choice('\t\r\0\x0b\x0c\xa0\xb2\xff')
    elif kind == 4:
        return source.choice([' ', '   ', ' #', '\t', '\r', '-', '0', 'units 1', '5 0 0 -', '5 0 0 -', '- 0 0 1080'])
    elif kind == 5:
        return of_length(source, source.choice([16383, 16384, 16385, 16386, 20000]))
    else:
        return random_calls.spoilt(source, ' '.join(words))
    return source.choice([' ', ' ', '\t'] if kind == 3 else [' ']).join(words)


def of_length(source, length):
    """A line of so many octets, about the longest that the gateway reads: a unit, or one to be passed over."""
    if source.random() < 0.5:
        return '#' * length
    return '5 0 0 '.ljust(length % 2 + 6) + '5a' * ((length - 6) // 2)


def text(source, lines):
    """Lines as text, with some to be passed over between them."""
    found = []
    for line in lines:
        if source.random() < 0.05:
            found.append(source.choice(['', '#', '# a remark', '#5 0 0 1080']))
        found.append(line)
    return '\n'.join(found) + ('' if source.random() < 0.1 else '\n')


def list_text(source):
    """A list as text, now and then with a fault, or with more than one: too long, out of range, on too many channels, malformed."""
    items, own = units(source), channels(source, 3)
    if source.random() < 0.004:
        items += filled(source, MOST - sum(HEAD + len(u.octets) for u in items) + source.choice([11, 0, 1, 2, 3000]), own)
    faults = [lambda: put(source, items, out_of_range(source, own))] * (source.random() < 0.2)
    faults += [lambda: seventeen(source, items)] * (source.random() < 0.15)
    for fault in source.sample(faults, len(faults)):
        items = fault()
    lines = [spelt(source, u) for u in items]
    if source.random() < 0.2:
        lines = put(source, lines, malformed(source, unit(source, own)))
    return text(source, lines)


# Damage

def numbers(items):
    """Where each number of a record stands, and its size."""
    for at in model.starts(items)[:-1]:
        for size in model.SIZES:
            yield at, size
            at += size
    at = model.starts(items)[-1]
    for size in model.PLACE_SIZES * PLACES + [4, 4, 4]:
        yield at, size
        at += size


def place(source, items, file):
    """A place in a file: anywhere, in the trailer or in some unit's head."""
    if source.random() < 0.4:
        return source.randrange(len(file) - TRAILER, len(file))
    if items and source.random() < 0.7:
        return source.choice(model.starts(items)[:-1]) + source.randrange(HEAD)
    return source.randrange(len(file))


def octet_changed(source, items, file):
    at = place(source, items, file)
    old = file[at]
    new = source.choice([source.randrange(256), old + 1, old - 1, old ^ 1 << source.randrange(8), 0, 1, 127, 128, 255])
    return file[:at] + bytes([new % 256]) + file[at + 1:]


def number_changed(source, items, file):
    """One number, often an offset or one of a used place, as another that stands in the file, or as one close by."""
    known, used = list(numbers(items)), 4 * len({u.channel for u in items})
    heads, trailer = known[:-67], known[-67:]
    some = source.choice([trailer[:used], trailer[1:used:4], trailer[3:used:4], trailer[used:], trailer[-3:], heads, heads[4::5]])
    at, size = source.choice(some or trailer)
    old = int.from_bytes(file[at:at + size], 'big')
    others = sorted({int.from_bytes(file[a:a + s], 'big') for a, s in known if s == size})
    near = [old + 1, old - 1, old + HEAD, old - HEAD, 0, NONE]
    new = source.choice([source.choice(others), source.choice(model.starts(items)), source.choice(near), source.choice(near)])
    return file[:at] + model.spread([new], [size]) + file[at + size:]


def cut(source, items, file):
    count = min(len(file), source.choice([1, 2, 3, 4, 8, 12, PLACE, 235, 236, 237, source.randint(1, len(file))]))
    at = source.choice([len(file) - count, len(file) - count, 0, source.randint(0, len(file) - count)])
    return file[:at] + file[at + count:]


def added(source, items, file):
    more = source.choice([b'\0', b'\n', b'H223', source.randbytes(source.randint(1, 40)), file, file[-TRAILER:]])
    at = source.choice([len(file), len(file), 0, len(file) - TRAILER, source.randint(0, len(file))])
    return file[:at] + more + file[at:]


def exchanged(file, a, b, size):
    """A file with two parts of one size exchanged."""
    found = bytearray(file)
    found[a:a + size], found[b:b + size] = file[b:b + size], file[a:a + size]
    return bytes(found)


def octets_exchanged(source, items, file):
    a = place(source, items, file)
    b = source.choice([place(source, items, file), max(a - 1, 0)])
    return exchanged(file, a, b, 1)


def places_exchanged(source, items, file):
    used = len({u.channel for u in items})
    a, b = source.choice([source.sample(range(PLACES), 2), [0, max(used - 1, 0)], [max(used - 1, 0), min(used, PLACES - 1)]])
    return exchanged(file, len(file) - TRAILER + a * PLACE, len(file) - TRAILER + b * PLACE, PLACE)


def numbers_exchanged(source, items, file):
    """Two numbers of one size, near each other."""
    known = list(numbers(items))
    a, size = source.choice(known)
    near = [at for at, s in known if s == size and abs(at - a) < 60]
    return exchanged(file, a, source.choice(near), size)


def sibling(source, items):
    """A list that is another in a little: a unit more, less or changed, two units exchanged, or another list altogether."""
    if not items:
        return units(source)
    k, j = source.randrange(len(items)), source.randrange(len(items))
    own = [u.channel for u in items] + channels(source, 1)
    found = list(items)
    kind = source.randrange(6)
    if kind == 0:
        found[k:k] = [unit(source, own)]
    elif kind == 1:
        del found[k]
    elif kind == 2:
        found[k] = unit(source, own)._replace(octets=found[k].octets)
    elif kind == 3:
        found[k] = found[k]._replace(channel=source.choice(own))
    elif kind == 4:
        found[k], found[j] = found[j], found[k]
    else:
        found = units(source)
    return found


def other_trailer(source, items, file):
    """The trailer of another record, sometimes with the count of octets put right."""
    other = model.laid_out(sibling(source, items))
    trailer = other[-TRAILER:] if source.random() < 0.6 else other[-TRAILER:-8] + file[-8:]
    return file[:-TRAILER] + trailer


def not_writable(source, items, file):
    """The layout of a list that no record may hold, right in all else."""
    if source.random() < 0.3:
        return model.laid_out(seventeen(source, items))
    return model.laid_out(put(source, items, out_of_range(source, [u.channel for u in items] or [5])))


DAMAGE = [octet_changed] * 6 + [number_changed] * 10 + [other_trailer] * 3 + [not_writable] * 4
DAMAGE += [cut, cut, added, added, octets_exchanged, octets_exchanged, places_exchanged, numbers_exchanged]


def damaged_file(source):
    """A record with some damage, now and then with more than one."""
    items = units(source)
    file = model.laid_out(items)
    file = source.choice(DAMAGE)(source, items, file)
    while len(file) > 2 and source.random() < 0.05:
        k = source.randrange(len(file) - 1)
        file = source.choice([exchanged(file, k, k + 1, 1), file[:-1], file + b'\0'])
    return file


def short_file(source):
    """A file of at most 300 octets: noise, or what is nearly a record of no units or of few."""
    few = [Unit(5, 0, 0, source.randbytes(source.randint(1, 20))) for _ in range(source.randint(0, 2))]
    file, length = model.laid_out(few), source.randint(0, 300)
    kind = source.randrange(5)
    if kind == 0:
        return source.choice([source.randbytes(length), bytes(length), b'\xff' * length, b'H223' * (length // 4)])
    if kind == 1:
        return file[:length]
    if kind == 2:
        return file[-length:]
    if kind == 3:
        return source.randbytes(length)[:64] + file[-TRAILER:]
    return source.choice([octet_changed, number_changed])(source, few, file)


# The largest: each is made by itself, so that one can be repeated alone

def over(source):
    """A list that is one octet past the limit."""
    return filled(source, MOST + 1)


def tiny(source, length=MOST):
    """A list of as many units as there may be, in so many octets."""
    return filled(source, length, short=True)


def crowd(source):
    """The text of more units than a record has octets for, over and over the same."""
    return model.text_of(tiny(source, MOST // 64)) * 96


def far_and_over(source):
    """A list past the limit with its last unit out of range."""
    items = over(source)
    return items + [out_of_range(source, [items[0].channel])]


def whole(source):
    """The octets of a largest record."""
    return model.laid_out(filled(source, MOST))


def with_damage(kind, short):
    def made(source):
        items = filled(source, MOST, short=short)
        return kind(source, items, model.laid_out(items))
    return made


# Lists that a record may just hold, and that it may not: by each refusal, and by all of them, of which the first is told.
LARGEST_LISTS = [
    lambda s: model.text_of(filled(s, MOST)),
    lambda s: model.text_of(tiny(s)),
    lambda s: model.text_of(over(s)),
    lambda s: model.text_of(tiny(s, MOST + 1)),
    crowd,
    lambda s: model.text_of(over(s) + seventeen(s, [])),
    lambda s: model.text_of(far_and_over(s)),
    lambda s: model.text_of(seventeen(s, far_and_over(s))),
    lambda s: crowd(s) + '1 0 0 00 \n65536 0 0 00\n',
    lambda s: model.text_of(seventeen(s, far_and_over(s))) + '1 0 0 0',
    lambda s: '# a remark\n' * 200000 + '1 0 0 00\n',
]

# Records of about the largest size, what is right but for its size, and what begins or ends as a record does.
LARGEST_FILES = [
    lambda s: model.laid_out(filled(s, MOST - 1)),
    lambda s: model.laid_out(over(s)),
    lambda s: model.laid_out(tiny(s, MOST + SHORTEST_UNIT)),
    lambda s: whole(s)[:-1],
    lambda s: whole(s)[1:],
    lambda s: whole(s) + b'\0',
    lambda s: b'\0' + whole(s),
    lambda s: whole(s) * 2,
    lambda s: whole(s) + bytes(5 * MOST),
    lambda s: bytes(9 * MOST) + model.laid_out([]),
    lambda s: s.randbytes(MOST) + whole(s)[-TRAILER:],
    lambda s: bytes(LONGEST - 1),
    lambda s: bytes(LONGEST),
    lambda s: bytes(LONGEST + 1),
    with_damage(octet_changed, False),
    with_damage(octets_exchanged, False),
    with_damage(number_changed, False),
    with_damage(number_changed, True),
]
LARGEST = len(LARGEST_LISTS) + len(LARGEST_FILES)


# Comparing

def laws(seed, count):
    """How many damaged files the model itself reads, and where its reader and its writer do not agree, None where they always do."""
    accepted = 0
    for number in range(1, count + 1):
        source = random.Random('laws %d %d' % (seed, number))
        items, file = units(source), damaged_file(source)
        if model.read(model.write(items)) != items:
            return accepted, 'a list is not read as it was written: list %d of seed %d' % (number, seed)
        answer, items = model.read_answer(file)
        if answer is None and model.write(items) != file:
            return accepted, 'a file is not written as it was read: file %d of seed %d' % (number, seed)
        accepted += answer is None
    return accepted, None


class Differs(Exception):
    """What the program does, and what is expected."""


def alike(what, got, expected):
    if got != expected:
        if got is None or expected is None:
            raise Differs('%s is %s, expected %s' % (what, *('none' if x is None else '%d octets' % len(x) for x in (got, expected))))
        k = next((k for k, (x, y) in enumerate(zip(got, expected)) if x != y), min(len(got), len(expected)))
        raise Differs('%s differs from octet %d on: %r, expected %r (%d octets, expected %d)'
                      % (what, k, got[k:k + 40], expected[k:k + 40], len(got), len(expected)))


class Program:
    """The program, a folder for its files, and how many of its answers were compared."""

    def __init__(self, words, room):
        self.words, self.answers = words, 0
        self.units, self.record = os.path.join(room, 'units'), os.path.join(room, 'record')

    def run(self, words, path, given, source):
        """What is printed about a file, which comes from standard input now and then. What fails without a refusal has its reason told."""
        with open(path, 'wb') as f:
            f.write(given)
        self.answers += 1
        with open(path if source.random() < 0.1 else os.devnull, 'rb') as f:
            words = [words[0], path if f.name == os.devnull else '-'] + words[1:]
            r = subprocess.run(self.words + words, stdin=f, capture_output=True, timeout=300)
        refused = r.stdout.startswith((b'refused ', b'malformed '))
        if r.returncode not in (0, 1 if refused else 0) or (r.stderr and not refused):
            raise Differs('%s ends with status %d and says %r' % (' '.join(words), r.returncode, r.stderr[-200:]))
        return r.stdout

    def writes(self, source, given, answer, file):
        """A list is answered so, and the record is this file, or as it was where there is none. Now and then it takes the list's place."""
        path = self.record if source.random() < 0.03 else self.units
        before = given if path == self.record else source.choice([None, None, b'', b'as it was\n', source.randbytes(400), model.laid_out([])])
        if before is not None:
            with open(self.record, 'wb') as f:
                f.write(before)
        elif os.path.exists(self.record):
            os.remove(self.record)
        alike('the answer to the list', self.run(['write', self.record], path, given, source), answer.encode() + b'\n')
        left = None
        if os.path.exists(self.record):
            with open(self.record, 'rb') as f:
                left = f.read()
        alike('the file that was written' if file is not None else 'the file after a refusal', left, before if file is None else file)

    def reads(self, source, file):
        """A file is answered as the model answers it; of a record, the printed text is written again and gives the file."""
        answer, items = model.read_answer(file)
        printed = self.run(['read'], self.record, file, source)
        if answer:
            return alike('the answer to the file', printed, answer.encode() + b'\n')
        lines = model.text_of(items).encode()
        alike('the list of the file', printed[:len(lines)], lines)
        table = printed[len(lines):]
        if not table.endswith(b'\n') or not all(line.startswith(b'#') for line in table[:-1].split(b'\n')):
            raise Differs('behind the list stand lines that do not begin with #, or none: %r' % table[:80])
        self.writes(source, printed, 'units %d octets %d' % (len(items), len(file)), file)

    def takes(self, source, given):
        """A list is written, read and written again."""
        answer, file = model.write_answer(given)
        self.writes(source, given.encode('latin-1'), answer, file)
        if file is not None:
            self.reads(source, file)


def case(program, seed, number):
    """The case of that number, from 1."""
    source = random.Random('%d %d' % (seed, number))
    if number <= len(LARGEST_LISTS):
        program.takes(source, LARGEST_LISTS[number - 1](source))
    elif number <= LARGEST:
        program.reads(source, LARGEST_FILES[number - len(LARGEST_LISTS) - 1](source))
    else:
        kind = source.random()
        if kind < 0.25:
            program.takes(source, list_text(source))
        else:
            program.reads(source, damaged_file(source) if kind < 0.92 else short_file(source))


def compare(words, room, seed, first, last):
    """How many answers were compared, and the first difference, None where there is none."""
    program = Program(words, room)
    for number in range(first, last + 1):
        try:
            case(program, seed, number)
        except (Differs, subprocess.TimeoutExpired) as d:
            again = ' '.join(['tests/model/random_records.py %d %d %d' % (seed, number, number)] + words)
            return program.answers, 'case %d of seed %d: %s; to repeat it: %s' % (number, seed, d, again)
    return program.answers, None


def main(seed, first, last, *words):
    room = tempfile.mkdtemp()
    answers, difference = compare(list(words), room, int(seed), int(first), int(last))
    if difference:
        print('DIFFERS: %s; its files are in %s' % (difference, room))
        return 1
    shutil.rmtree(room)
    print('ok: cases %s to %s of seed %s, %d answers compared' % (first, last, seed, answers))
    return 0


if __name__ == '__main__':
    if len(sys.argv) < 5:
        print(__doc__)
        sys.exit(2)
    sys.exit(main(*sys.argv[1:]))
