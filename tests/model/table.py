"""Entries of the multiplex table, by document 01 and table 2 of 6.6 of document 000: an entry is a tree, its expansion a generator."""
import re

from refusals import Malformed


def decimal(digits):
    """A number of any length; one of more than twelve digits is as good as any other that is too large."""
    return int((digits.lstrip('0') or '0')[:12])


# The table: an element is (channel or list, repeat count), None for until closing

def read_descriptor(text):
    """The elements of a descriptor in the notation of table 2 of 6.6; numbers as they stand."""
    at = 0

    def literal(word):
        nonlocal at
        if not text.startswith(word, at):
            raise Malformed
        at += len(word)

    def number():
        nonlocal at
        m = re.compile('[0-9]+').match(text, at)
        if not m:
            raise Malformed
        at = m.end()
        return decimal(m.group())

    def repeat():
        nonlocal at
        literal('RC')
        if text.startswith(' UCF', at):
            at += 4
            return None
        return number()

    def element():
        nonlocal at
        literal('{')
        if text.startswith('LCN', at):
            literal('LCN')
            inner = number()
            literal(',')
        else:
            inner = []
            while not inner or not text.startswith('RC', at):
                inner.append(element())
                literal(',')
        times = repeat()
        literal('}')
        return inner, times

    elements = [element()]
    while at < len(text):
        literal(',')
        elements.append(element())
    return elements


def keeps_rules(entry):
    def good(elements, depth, last_may_close):
        for k, (inner, times) in enumerate(elements):
            if times is None:
                if not (last_may_close and k == len(elements) - 1):
                    return False
            elif not 1 <= times <= 65535:
                return False
            if isinstance(inner, list):
                if depth == 3 or len(inner) < 2 or not good(inner, depth + 1, False):
                    return False
            elif inner > 65535:
                return False
        return True

    def count(elements):
        return sum(1 + (count(inner) if isinstance(inner, list) else 0) for inner, _ in elements)

    return good(entry, 1, True) and 1 <= count(entry) <= 32


def slots(elements):
    """The slots of an entry, in order: channel and length, None for until closing."""
    for inner, times in elements:
        if isinstance(inner, list):
            n = 0
            while times is None or n < times:
                yield from slots(inner)
                n += 1
        else:
            yield inner, times
