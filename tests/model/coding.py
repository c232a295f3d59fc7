"""AL1M, by document 01: code words over the field of 256, the checks, coding and repair.

Products go by sums of exponents, the checks go bit by bit, the repair is Sugiyama's (Euclid's algorithm on x^2e and the syndromes) and a
candidate counts only if it is a code word within e.
"""
from refusals import refuse_if

# The field, by x^8 + x^4 + x^3 + x^2 + 1

ALPHA = [1]
while len(ALPHA) < 255:
    ALPHA.append(2 * ALPHA[-1] if ALPHA[-1] < 0x80 else 2 * ALPHA[-1] ^ 0x11D)
EXPONENT = {a: i for i, a in enumerate(ALPHA)}


def product(a, b):
    return ALPHA[(EXPONENT[a] + EXPONENT[b]) % 255] if a and b else 0


def inverse(a):
    return ALPHA[-EXPONENT[a] % 255] if a else 0


# Polynomials, lowest coefficient first

def trim(p):
    while p and p[-1] == 0:
        p = p[:-1]
    return p


def poly_add(p, q):
    n = max(len(p), len(q))
    p, q = p + [0] * (n - len(p)), q + [0] * (n - len(q))
    return trim([a ^ b for a, b in zip(p, q)])


def poly_mul(p, q):
    r = [0] * (len(p) + len(q))
    for i, a in enumerate(p):
        for j, b in enumerate(q):
            r[i + j] ^= product(a, b)
    return trim(r)


def poly_divmod(p, q):
    p, q = trim(p), trim(q)
    quotient = [0] * max(len(p) - len(q) + 1, 0)
    while len(p) >= len(q):
        k, c = len(p) - len(q), product(p[-1], inverse(q[-1]))
        quotient[k] = c
        p = trim(poly_add(p, [0] * k + [product(c, b) for b in q]))
    return quotient, p


def value(p, x):
    r = 0
    for c in reversed(p):
        r = product(r, x) ^ c
    return r


# The code: a word's first octet is its highest coefficient

def generator(e):
    g = [1]
    for i in range(1, 2 * e + 1):
        g = poly_mul(g, [ALPHA[i % 255], 1])
    return g


def code_word(message, e):
    _, rest = poly_divmod([0] * (2 * e) + list(reversed(message)), generator(e))
    rest = rest + [0] * (2 * e - len(rest))
    return message + list(reversed(rest))


def syndromes(word, e):
    r = list(reversed(word))
    return [value(r, ALPHA[i % 255]) for i in range(1, 2 * e + 1)]


def nearest(word, e):
    """The code word within e octets of the word, or None."""
    s = syndromes(word, e)
    if not any(s):
        return word
    before, now = [0] * (2 * e) + [1], trim(s)
    locator_before, locator = [], [1]
    while len(now) > e:
        q, rest = poly_divmod(before, now)
        before, now = now, rest
        locator_before, locator = locator, poly_add(locator_before, poly_mul(q, locator))
    if not locator:
        return None
    slope = [c if i % 2 == 0 else 0 for i, c in enumerate(locator[1:])]
    found = list(word)
    for place in range(len(word)):
        x = inverse(ALPHA[place])
        if value(locator, x) == 0:
            if value(slope, x) == 0:
                return None
            found[len(word) - 1 - place] ^= product(value(now, x), inverse(value(slope, x)))
    if any(syndromes(found, e)) or len(differing(word, found)) > e:
        return None
    return found


def differing(a, b):
    """The places, from 0, at which two words differ."""
    return [k for k in range(len(a)) if a[k] != b[k]]


# The checks: bit 1 of the first octet is the highest coefficient

def bits(octets):
    return [o >> k & 1 for o in octets for k in range(8)]


def octets_of_bits(b):
    return [sum(b[i + k] << k for k in range(8)) for i in range(0, len(b), 8)]


def remainder(dividend, divisor):
    d = list(dividend)
    for i in range(len(d) - len(divisor) + 1):
        if d[i]:
            for j, c in enumerate(divisor):
                d[i + j] ^= c
    return d[len(d) - len(divisor) + 1:]


EIGHT = [1, 0, 0, 0, 0, 0, 1, 1, 1]
SIXTEEN = [1, 0, 0, 0, 1, 0, 0, 0, 0, 0, 0, 1, 0, 0, 0, 0, 1]


def check(content, width):
    if width == 0:
        return []
    b = bits(content)
    if width == 8:
        return octets_of_bits(remainder(b + [0] * 8, EIGHT))
    first = remainder([1] * 16 + [0] * len(b), SIXTEEN)
    second = remainder(b + [0] * 16, SIXTEEN)
    return octets_of_bits([1 ^ x ^ y for x, y in zip(first, second)])


# AL1M

def sent_length(t, width, e):
    refuse_if(width not in (0, 8, 16) or e > 127, 1)
    n = t + width // 8 + 2 * e
    refuse_if(t < 1 or n > 255, 2)
    return n


def encode(unit, width, e, room):
    n = sent_length(len(unit), width, e)
    refuse_if(room < n, 3)
    return code_word(unit + check(unit, width), e)


def receive(word, width, e, room, list_room):
    """Badge, unit and changed places."""
    refuse_if(width not in (0, 8, 16) or e > 127, 1)
    l, n = width // 8, len(word)
    refuse_if(n > 255 or n < 1 + l + 2 * e, 2)
    refuse_if(room < n or list_room < e, 3)
    t = n - l - 2 * e
    found = nearest(word, e)
    if found is None:
        return 2, word[:t], []
    places = differing(word, found)
    if check(found[:t], width) != found[t:t + l]:
        return 3, word[:t], places
    if places:
        return 1, found[:t], places
    return (4 if e == 0 and l == 0 else 0), word[:t], []
