#!/usr/bin/env python3
"""The outcomes that the second program (second/, Rust) writes with its cases, held against the proved programs.

Usage: second_cases.py parcels FILE    the cases of parcel-cases
       second_cases.py journal FILE    the sessions of journal-cases
The files' formats stand at the top of second/src/bin/parcel-cases.rs and journal-cases.rs. What the input of target/bin/parcel_cases
or target/bin/journal_sessions cannot carry is held against the implementations in Python, parcels.py and journal_sessions.py.
It ends with the numbers of cases compared, or at the first difference, with exit 1.
"""
import io
import struct
import subprocess
import sys

import journal_sessions
import parcels

PROVED, PYTHON = 'the proved program', 'Python'
LIMITS = {most: limit for limit, most in parcels.LIMIT.items()}
SLOT, LENT = 0x5A5A5A5A, 0xC3  # what the second program lends to the reader and to the writer
SLOTS, WORDS, INPUT = 80, 64, 65536  # the most that the program of sessions has: slots of a table, words of a journal, bytes of input


class Frame:
    """Bytes of the second program, read from the front."""

    def __init__(self, data):
        self.data, self.at = data, 0

    def bytes(self, count):
        self.at += count
        return self.data[self.at - count:self.at]

    def words(self, count):
        return list(struct.unpack(f'<{count}I', self.bytes(4 * count)))


def frames(path):
    with open(path, 'rb') as file:
        whole = Frame(file.read())
    assert whole.data, 'no cases'
    while whole.at < len(whole.data):
        frame = Frame(whole.bytes(whole.words(1)[0]))
        yield frame
        hold('length of a case', frame.at, len(frame.data), 'the file')


def hold(case, second, other, whose):
    if second != other:
        print(f'differs: {case}\nthe second program: {second}\n{whose}: {other}')
        sys.exit(1)


def ran(name, data):
    """What a proved program writes."""
    program = ['sh', 'tools/run-program.sh', f'target/bin/{name}']
    return io.BytesIO(subprocess.run(program, input=data, stdout=subprocess.PIPE, check=True).stdout)


def stepped(depths, labels, room):
    """The case of the proved writer with these rows, or None if they are not filled in steps as the bytes are."""
    first, second, *_ = (labels or depths) + [LENT, LENT]
    case = parcels.writing(room, len(depths), len(labels), first, (second - first) % parcels.WORD)
    fills = [parcels.steps(count, case.first, case.step, width) for count, width in ((len(depths), 2), (len(labels), 4), (room, 1))]
    return case if fills == [depths, labels, [LENT] * room] else None


def answer_of(number, one, other):
    """An answer of parcels.py or of the proved program as the second program writes it."""
    return [number, one, 0, 0] if number else [0, 0, one, other]


def parcel_cases(path):
    asked, beside = [], 0
    for frame in frames(path):
        if frame.words(1) == [1]:
            limit, start, d, l, n = frame.words(5)
            case = parcels.reading(frame.bytes(n), start, LIMITS[limit], d, l)
            case.first, case.step = SLOT, 0
            asked.append((case, frame.words(4), frame.words(d + l)))
            continue
        d, l, room = frame.words(3)
        depths, labels = frame.words(d), frame.words(l)
        answer, lent = frame.words(3) + [0], frame.bytes(room)
        case = stepped(depths, labels, room)
        if case:
            asked.append((case, answer, lent))
        else:
            said, left = parcels.write(depths, labels, bytes([LENT]) * room)
            hold(f'write {depths} {labels}', (answer, lent), (answer_of(*said), left), PYTHON)
            beside += 1
    out = ran('parcel_cases', b''.join(case.header() for case, _, _ in asked))
    for case, answer, lent in asked:
        said = answer_of(*(int(out.readline()) for _ in range(3)))
        left = [int(out.readline()) for _ in lent] if case.kind == 0 else out.read(len(lent))
        hold(vars(case), (answer, lent), (said, left), PROVED)
    hold('bytes behind the last case', b'', out.read(), PROVED)
    wrote = sum(case.kind for case, _, _ in asked)
    print(f'second program: {len(asked)} cases agree with {PROVED} ({wrote} of the writer), {beside} of the writer with {PYTHON}')


class Run:
    """Calls of a session with no word changed between them: sizes, the counts and slots before, and each call with what is said of it."""

    def __init__(self, sizes, start):
        self.sizes, self.start, self.calls = sizes, start, []

    def code(self):
        """The bytes that have the proved program play it, or None."""
        d, l, w = self.sizes
        rows, entries, *slots = self.start
        if max(d, l) > SLOTS or w > WORDS:
            return None
        big = journal_sessions.BIG
        words = [{big: 255, 255: big}.get(word, word) for word in slots[d:]]
        moves = [byte for row, _ in self.calls for byte in ([2] if row is None else [1, row])]
        try:
            return bytes([3, d, l, rows, w, entries, *slots[:d], *words, *moves])
        except ValueError:
            return None

    def played(self):
        """What Python says after each call, as the proved program writes it."""
        d, l, _ = self.sizes
        rows, entries, *slots = self.start
        session = journal_sessions.Session(slots[:d], slots[d:d + l], rows, slots[d + l:], entries)
        for row, _ in self.calls:
            answer = session.undo() if row is None else session.strike(row)
            yield [*answer, *session.depths, *session.labels, *session.words]

    def hold(self, lines, whose):
        """Every answer and every slot after it; a refusal leaves the counts."""
        counts = self.start[:2]
        for (row, second), (number, *line) in zip(self.calls, lines):
            place, slots = line[0], line[1:]
            if number == 0:
                place, counts, slots = 0, line[:2], line[2:]
            hold(f'{self.sizes} {self.start}, rows struck (None: undo) {[row for row, _ in self.calls]}, at {row}',
                 second, [number, place, *counts, *slots], whose)


def runs(frame):
    """The runs of a session. A change between them must be the one that it says."""
    d, l, w, rows, entries, steps = frame.words(6)
    run = Run((d, l, w), [rows, entries, *frame.words(d + l + w)])
    now = run.start
    for _ in range(steps):
        kind, first, second = frame.words(3)
        said = frame.words(4 + d + l + w)
        if kind in (1, 2):
            run.calls.append((first if kind == 1 else None, said))
        else:
            yield run
            at, word = {3: (2 + d + l + first, second), 4: (2 + first, second), 5: (0, first), 6: (1, first)}[kind]
            now[at] = word
            hold(f'change {kind} {first} {second}', said, [0, 0, *now], 'as replayed')
            run = Run((d, l, w), now)
        now = said[2:]
    yield run


def journal_cases(path):
    asked, beside, sessions = [], [], 0
    for frame in frames(path):
        sessions += 1
        for run in runs(frame):
            code = run.code()
            (asked if code else beside).append((run, code))
    batches = [[]]
    for run, code in asked:
        if sum(len(other) for _, other in batches[-1]) + len(code) > INPUT:
            batches.append([])
        batches[-1].append((run, code))
    for batch in batches:
        out = ran('journal_sessions', b''.join(code for _, code in batch))
        for run, _ in batch:
            run.hold([[int(word) for word in out.readline().split()] for _ in run.calls], PROVED)
        hold('bytes behind the last call', b'', out.read(), PROVED)
    for run, _ in beside:
        run.hold(run.played(), PYTHON)
    calls = [sum(len(run.calls) for run, _ in some) for some in (asked, beside)]
    print(f'second program: {calls[0]} calls agree with {PROVED}, {calls[1]} with {PYTHON}, in {sessions} sessions')


{'parcels': parcel_cases, 'journal': journal_cases}[sys.argv[1]](sys.argv[2])
