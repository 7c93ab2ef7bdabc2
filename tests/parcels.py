#!/usr/bin/env python3
"""An independent reader and writer of parcels, written from document 01 alone, held against the proved ones.

Usage: parcels.py        (in the repository, after `make target/bin/parcel_cases`)
It makes cases, has target/bin/parcel_cases run them, and compares each outcome whole: the answer and every lent slice afterwards.
It ends with the number of cases that agree, or at the first that does not, with exit 1.
"""
import random
import subprocess
import sys

RECIPE, LISTING = 0, 1
LIMIT = {RECIPE: 256, LISTING: 4096}
WORD = 1 << 32
PROGRAM = ['sh', 'tools/run-program.sh', 'target/bin/parcel_cases']


def le(value, width):
    return value.to_bytes(width, 'little')


def sums(n, labels, depths):
    first = second = 0
    for word in [n, *labels, *depths]:
        first = (first + word) % WORD
        second = (second + first) % WORD
    return first, second


def parcel(depths, labels):
    n = len(labels)
    out = le(n, 4) + b''.join(le(x, 4) for x in labels)
    out += le(n, 4) + b''.join(le(x, 2) for x in depths)
    return out + le(2, 4) + b''.join(le(x, 4) for x in sums(n, labels, depths))


class Refused(Exception):
    def __init__(self, number, place):
        super().__init__(number, place)
        self.answer = (number, place, 0)


class Input:
    """The input from a place on, field by field."""

    def __init__(self, data, at):
        self.data, self.at = data, at

    def field(self, width):
        piece = self.data[self.at:self.at + width]
        if len(piece) < width:
            raise Refused(11, len(self.data))
        self.at += width
        return int.from_bytes(piece, 'little')


def read(data, start, limit, depths, labels):
    """The answer, and the two row slices afterwards."""
    try:
        source = Input(data, start)
        n = source.field(4)
        if n > LIMIT[limit]:
            raise Refused(16, start)
        new_labels = [source.field(4) for _ in range(n)]
        place = source.at
        if source.field(4) != n:
            raise Refused(12, place)
        new_depths = [source.field(2) for _ in range(n)]
        place = source.at
        if source.field(4) != 2:
            raise Refused(13, place)
        place = source.at
        if (source.field(4), source.field(4)) != sums(n, new_labels, new_depths):
            raise Refused(14, place)
        if min(len(depths), len(labels)) < n:
            raise Refused(18, 0)
    except Refused as refused:
        return refused.answer, depths, labels
    return (0, n, source.at), new_depths + depths[n:], new_labels + labels[n:]


def write(depths, labels, room):
    """The answer, and the bytes afterwards."""
    if len(depths) != len(labels):
        return (6, 0, 0), room
    if len(labels) > LIMIT[LISTING]:
        return (7, 0, 0), room
    made = parcel(depths, labels)
    if len(room) < len(made):
        return (17, 0, 0), room
    return (0, len(made), 0), made + room[len(made):]


def steps(count, first, step, width):
    bound = 1 << 8 * width
    return [(first + i * step) % bound for i in range(count)]


class Case:
    """A case for the program: its header's words, and the input after it."""

    def __init__(self, kind, data, start, limit, length, depths, labels, first, step):
        self.kind, self.data, self.start, self.limit, self.length = kind, data, start, limit, length
        self.depths, self.labels, self.first, self.step = depths, labels, first, step

    def header(self):
        words = [self.kind, self.start % WORD, self.start // WORD, self.limit, self.length, self.depths, self.labels, self.first, self.step]
        return b''.join(le(word, 4) for word in words) + self.data

    def expected(self):
        depths, labels = steps(self.depths, self.first, self.step, 2), steps(self.labels, self.first, self.step, 4)
        if self.kind == 0:
            answer, depths, labels = read(self.data, self.start, self.limit, depths, labels)
            return ''.join(f'{x}\n' for x in [*answer, *depths, *labels]).encode()
        answer, room = write(depths, labels, bytes(steps(self.length, self.first, self.step, 1)))
        return ''.join(f'{x}\n' for x in answer).encode() + room


def reading(data, start=0, limit=LISTING, depths=4, labels=4):
    return Case(0, bytes(data), start, limit, len(data), depths, labels, 51966, 257)


def writing(room, depths, labels, first, step):
    return Case(1, b'', 0, LISTING, room, depths, labels, first, step)


def table(chance, n):
    return [chance.randrange(1 << 16) for _ in range(n)], [chance.randrange(WORD) for _ in range(n)]


def cuts(chance):
    """Every cut of small parcels, at the front of the input and after other bytes, at both limits."""
    for n in range(4):
        made = parcel(*table(chance, n))
        for ahead in (b'', b'\x05\x00\x00\x00\x07'):
            for end in range(len(ahead) + len(made) + 3):
                for limit in (RECIPE, LISTING):
                    yield reading((ahead + made + b'\x09\x09')[:end], len(ahead), limit)


def changes(chance):
    """Every change of one byte of two small parcels."""
    for depths, labels in (([0, 1], [10, 20]), table(chance, 3)):
        made = parcel(depths, labels)
        for at in range(len(made)):
            for other in range(256):
                if other != made[at]:
                    yield reading(made[:at] + bytes([other]) + made[at + 1:])


def damage(chance):
    """Parcels with several bytes changed, doubled, lost or exchanged."""
    for _ in range(3000):
        data = bytearray(parcel(*table(chance, chance.randrange(6))))
        for _ in range(chance.randrange(1, 4)):
            at, other = chance.randrange(len(data)), chance.randrange(len(data))
            kind = chance.randrange(4)
            if kind == 0:
                data[at] = chance.randrange(256)
            elif kind == 1:
                data.insert(at, data[other])
            elif kind == 2 and len(data) > 1:
                del data[at]
            else:
                data[at], data[other] = data[other], data[at]
        yield reading(data, chance.choice((0, 0, 0, 1, 4)), chance.randrange(2), chance.randrange(7), chance.randrange(7))


def limits(chance):
    """Each limit and one over it; row slices that just fit and are one too short; starts at and beyond the input's end."""
    for limit, most in LIMIT.items():
        for n in (most, most + 1):
            made = parcel(*table(chance, n))
            for slots in ((n, n), (n - 1, n), (n, n - 1)):
                yield reading(made, 0, limit, *slots)
            yield reading(made[:4 + 4 * n], 0, limit, n, n)
            yield reading(made[:-1], 0, limit, n, n)
    for n in range(5):
        made = parcel(*table(chance, n))
        for depths in range(n + 2):
            for labels in range(n + 2):
                yield reading(made, 0, RECIPE, depths, labels)
        for start in (len(made) - 1, len(made), len(made) + 1, WORD - 1, WORD, (1 << 63) - 1, 1 << 63, (1 << 64) - 4, (1 << 64) - 1):
            yield reading(made, start)


def writes(chance):
    """Tables of each size with room that just fits, is one too short or has more; slices that differ; each limit and one over."""
    for n in [*range(9), 255, 256, 257, 4095, 4096, 4097]:
        for room in (0, 19 + 6 * n, 20 + 6 * n, 25 + 6 * n):
            yield writing(room, n, n, chance.randrange(WORD), chance.randrange(WORD))
        yield writing(20 + 6 * n, n, n + 1, 1, 1)
        yield writing(20 + 6 * n, n + 1, n, 1, 1)
    for _ in range(1000):
        n = chance.randrange(12)
        yield writing(chance.randrange(120), n, n, chance.randrange(WORD), chance.randrange(WORD))


def main():
    chance = random.Random(5)
    cases = [case for make in (cuts, changes, damage, limits, writes) for case in make(chance)]
    ran = subprocess.run(PROGRAM, input=b''.join(case.header() for case in cases), stdout=subprocess.PIPE, check=True).stdout
    at = 0
    for number, case in enumerate(cases):
        expected = case.expected()
        got = ran[at:at + len(expected)]
        if got != expected:
            print(f'case {number} differs: {vars(case)}\nexpected {expected[:200]}\ngot {got[:200]}')
            sys.exit(1)
        at += len(expected)
    if at != len(ran):
        print(f'{len(ran) - at} bytes more than expected')
        sys.exit(1)
    kinds = {}
    for case in cases:
        answer = int(case.expected().split(b'\n', 1)[0])
        kinds[case.kind, answer] = kinds.get((case.kind, answer), 0) + 1
    for (kind, answer), count in sorted(kinds.items()):
        print(f"{'write' if kind else 'read'} {answer}: {count}")
    print(f'{len(cases)} cases agree')


if __name__ == '__main__':
    main()
