"""Packets of level 2, by ticket 4 of document 02 and B.3.1 to B.3.3 of document 000; the hunting in a stream is that of docs/gateway.md.

A packet's header is laid out by the names in figure B.2, its parity is the printed matrix, transposed, times the column of data, and a
received header is compared with all 4,096.
"""
import functools

from refusals import Refused, refuse_if

# Packets of level 2: figures A.1 and B.2 and the matrix of B.3.2.1.3 as they are printed

FLAG_FIGURE = ['1 1 1 0 0 0 0 1', '0 1 0 0 1 1 0 1']  # bit 8 first, an octet a row
HEADER_FIGURE = ['MPL4 MPL3 MPL2 MPL1 MC4 MC3 MC2 MC1', 'P4 P3 P2 P1 MPL8 MPL7 MPL6 MPL5', 'P12 P11 P10 P9 P8 P7 P6 P5']
MATRIX = """
101011100011
111110010010
110100101011
110001110110
110011011001
011001101101
001100110111
101101111000
010110111100
001011011110
101110001101
010111000111
""".split()
LONGEST_PAYLOAD = 254

FLAG = [int(row.replace(' ', ''), 2) for row in FLAG_FIGURE]
FLAGS = [FLAG, [255 - octet for octet in FLAG]]  # plain, complemented


def header(code, length):
    bit = {'MC%d' % (k + 1): code >> k & 1 for k in range(4)}
    bit.update({'MPL%d' % (k + 1): length >> k & 1 for k in range(8)})
    column = list(bit.values())  # MC1 to MC4, MPL1 to MPL8
    for k, row in enumerate(zip(*MATRIX)):  # the rows of the transposed matrix
        bit['P%d' % (k + 1)] = sum(int(a) * b for a, b in zip(row, column)) % 2
    return [int(''.join(str(bit[name]) for name in row.split()), 2) for row in HEADER_FIGURE]


def as_number(header_octets):
    return int.from_bytes(bytes(header_octets), 'big')


HEADERS = {(code, length): as_number(header(code, length)) for code in range(16) for length in range(256)}


@functools.lru_cache(maxsize=None)
def header_sent(received):
    """The code and the length of the header within three bits of the received one, or None."""
    near = [data for data, sent in HEADERS.items() if bin(sent ^ received).count('1') <= 3]
    assert len(near) <= 1
    return near[0] if near else None


def pack(opens, code, mark, payload, room):
    """The packet, opened by the plain flag (0) or the complemented one (1)."""
    refuse_if(code > 15, 4)
    refuse_if(len(payload) > LONGEST_PAYLOAD, 2)
    packet = FLAGS[opens] + header(code, len(payload)) + payload + FLAGS[mark]
    refuse_if(room < len(packet), 3)
    return packet


def unpack(octets):
    """Code, mark, payload, and where the next packet's flag lies."""
    refuse_if(octets[:2] not in FLAGS or len(octets) < 5, 15)
    sent = header_sent(as_number(octets[2:5]))
    refuse_if(sent is None, 17)
    code, length = sent
    refuse_if(length > LONGEST_PAYLOAD, 2)
    closing = octets[5 + length:7 + length]
    refuse_if(closing not in FLAGS, 15)
    return code, FLAGS.index(closing), octets[5:5 + length], 5 + length


def packets_in(octets):
    """The place of every packet of a stream, with what it says; and of each gap, with the refusal."""
    def at(k):
        try:
            return unpack(octets[k:])
        except Refused as r:
            return r

    found = {k: at(k) for k in range(max(len(octets), 1))}
    places = [k for k, what in found.items() if not isinstance(what, Refused)]
    k = 0
    while k is not None:
        what = found[k]
        yield what
        if isinstance(what, Refused):
            k = min((p for p in places if p > k), default=None)
        else:
            k += what[3]
            if k + 2 == len(octets):
                k = None
