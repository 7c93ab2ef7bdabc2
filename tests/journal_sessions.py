#!/usr/bin/env python3
"""A plain second implementation of strike and undo, and the sessions on which the two are compared.

Usage: journal_sessions.py [--check] CRATE    writes CRATE/stdin and CRATE/stdout, or with --check compares them with what it would write

The table is a tree of nodes, rebuilt after each call from the first table and the strikes still standing: a strike takes a node out and
puts its children in its place. Depths are counted anew from the tree. Number 29 is settled by trying tables: all well-formed ones of up
to eight rows, and for longer ones all that put a row at the place and let some of the rows behind it rise.
"""
import random
import sys
from pathlib import Path

DEEPEST = 63
BIG = 70000  # what byte 255 stands for in a word
SESSIONS = 400


def first_bad(depths):
    """The first row that breaks a table, or 0."""
    before = -1
    for row, depth in enumerate(depths, 1):
        if depth > before + 1 or depth > DEEPEST:
            return row
        before = depth
    return 0


class Node:
    def __init__(self, label, parent):
        self.label, self.parent, self.children = label, parent, []


def grown(rows):
    """The tree of a well-formed table of (depth, label) rows, under a node above all roots."""
    top = Node(None, None)
    path = [top]
    for depth, label in rows:
        del path[depth + 1:]
        node = Node(label, path[-1])
        path[-1].children.append(node)
        path.append(node)
    return top


def listed(top):
    """The nodes in preorder, each with its depth."""
    out = []

    def walk(node, depth):
        for child in node.children:
            out.append((child, depth))
            walk(child, depth + 1)

    walk(top, 0)
    return out


def size(node):
    return sum(1 + size(child) for child in node.children)


def flat(top):
    return [(depth, node.label) for node, depth in listed(top)]


def strike(rows, row):
    """The rows without row `row`, and the entry of that strike."""
    top = grown(rows)
    node, depth = listed(top)[row - 1]
    siblings = node.parent.children
    at = siblings.index(node)
    siblings[at:at + 1] = node.children
    for child in node.children:
        child.parent = node.parent
    return flat(top), (row, node.label, depth, size(node))


def tables(n, most=0):
    """All well-formed depths of n rows."""
    if n == 0:
        yield []
        return
    for depth in range(min(most, DEEPEST) + 1):
        for rest in tables(n - 1, depth + 1):
            yield [depth] + rest


def came_from(rows, entry):
    """The table with a row as the entry says whose strike leaves these rows, or None."""
    row, label, _, descendants = entry
    if not 1 <= row <= len(rows) + 1 or descendants > len(rows):
        return None
    labels = [carried for _, carried in rows]
    labels.insert(row - 1, label)
    if len(rows) < 8:
        tried = tables(len(rows) + 1)
    else:
        left = [depth for depth, _ in rows]
        tried = (left[:row - 1] + [depth] + [d + 1 for d in left[row - 1:row - 1 + n]] + left[row - 1 + n:]
                 for depth in range(DEEPEST + 1) for n in range(len(rows) + 2 - row))
    for depths in tried:
        if not first_bad(depths):
            before = list(zip(depths, labels))
            if strike(before, row) == (rows, entry):
                return before
    return None


class Session:
    def __init__(self, depths, labels, rows, words, entries):
        self.depths, self.labels, self.rows, self.words, self.entries = depths, labels, rows, words, entries
        self.first, self.standing = None, []

    def refusal(self):
        """Numbers 21 to 24."""
        if len(self.depths) != len(self.labels) or len(self.depths) > 4096:
            return 21, 0
        if self.rows > len(self.depths):
            return 22, 0
        bad = first_bad(self.depths[:self.rows])
        if bad:
            return 23, bad
        if len(self.words) % 4 or len(self.words) > 16384 or self.entries > len(self.words) // 4:
            return 24, 0
        return None

    def table(self):
        """The first table under the strikes still standing."""
        rows = self.first
        for row in self.standing:
            rows, _ = strike(rows, row)
        return rows

    def begin(self):
        if self.first is None:
            self.first = list(zip(self.depths[:self.rows], self.labels[:self.rows]))

    def store(self, last):
        """Writes the table into the slots; the slots up to `last` that it leaves become 0."""
        rows = self.table()
        self.rows = len(rows)
        for i in range(max(len(rows), last)):
            self.depths[i], self.labels[i] = rows[i] if i < len(rows) else (0, 0)

    def strike(self, row):
        no = self.refusal()
        if no:
            return no
        if not 1 <= row <= self.rows:
            return 25, 0
        if self.entries == len(self.words) // 4:
            return 26, 0
        self.begin()
        _, entry = strike(self.table(), row)
        self.standing.append(row)
        self.words[4 * self.entries:4 * self.entries + 4] = entry
        self.entries += 1
        self.store(self.rows)
        return 0, self.rows, self.entries

    def undo(self):
        no = self.refusal()
        if no:
            return no
        if self.entries == 0:
            return 27, 0
        if self.rows == len(self.depths):
            return 28, 0
        self.begin()
        at = 4 * (self.entries - 1)
        if self.standing:
            self.standing.pop()
        else:
            before = came_from(self.first, tuple(self.words[at:at + 4]))
            if before is None:
                return 29, 0
            self.first = before
        self.words[at:at + 4] = [0] * 4
        self.entries -= 1
        self.store(0)
        return 0, self.rows, self.entries


def some_table(draw, n):
    depths, most = [], 0
    for _ in range(n):
        depth = draw.choice([most, draw.randint(0, most)])
        depths.append(depth)
        most = depth + 1
    return [(depth, draw.randint(0, 254)) for depth in depths]


def some_session(draw):
    """The bytes that begin a session, and the session."""
    deep = draw.random() < 0.02
    if deep:
        n = draw.randint(60, 64)
        rows = [(depth, draw.randint(0, 254)) for depth in range(n)]
    else:
        rows = some_table(draw, draw.randint(0, 7))
    entries = []
    for _ in range(draw.choice([0, 0, 1, 2])):
        if rows and draw.random() < 0.8:
            rows, entry = strike(rows, 1 if deep else draw.randint(1, len(rows)))
            entry = list(entry)
            if draw.random() < 0.3:
                entry[draw.randrange(4)] = draw.choice([0, 1, 2, 3, 63, BIG])
        else:
            entry = [draw.randint(1, 3), draw.randint(0, 254), draw.randint(0, 2), draw.randint(0, 2)]
        entries.append(entry)
    depths = [depth for depth, _ in rows]
    labels = [label for _, label in rows]
    count = len(rows)
    if depths and draw.random() < 0.05:
        depths[draw.randrange(count)] += draw.randint(1, 3)
    spare = draw.choice([0, 1, 2, 3])
    depths += [draw.randint(0, 254) for _ in range(spare)]
    labels += [draw.randint(0, 254) for _ in range(spare)]
    if draw.random() < 0.04:
        labels.append(7)
    if draw.random() < 0.04:
        count = len(depths) + 1
    words = [word for entry in entries for word in entry]
    words += [draw.choice([0, 0, 9, 254]) for _ in range(4 * draw.randint(0, 5))]
    if draw.random() < 0.04:
        words += [0] * draw.randint(1, 3)
    noted = len(entries) + (1 if draw.random() < 0.03 else 0)
    head = [3, len(depths), len(labels), count, len(words), noted]
    code = head + depths + labels + [255 if word == BIG else word for word in words]
    return code, Session(depths, labels, count, words, noted)


def marked():
    """S1, then S3; S2."""
    for row in (2, 1):
        code = [3, 3, 3, 3, 4, 0, 0, 1, 2, 10, 30, 20, 0, 0, 0, 0]
        yield code, Session([0, 1, 2], [10, 30, 20], 3, [0] * 4, 0), [row, None]


def played():
    draw = random.Random(4)
    code, lines = [], []

    def step(session, row):
        """A strike of a row, or with None an undo."""
        code.extend([2] if row is None else [1, row])
        answer = session.undo() if row is None else session.strike(row)
        lines.append(' '.join(str(n) for n in (*answer, *session.depths, *session.labels, *session.words)) + ' \n')

    for head, session, rows in marked():
        code.extend(head)
        for row in rows:
            step(session, row)
    for _ in range(SESSIONS):
        head, session = some_session(draw)
        code.extend(head)
        for _ in range(draw.randint(1, 14)):
            some = draw.randint(1, max(1, session.rows))
            step(session, None if draw.random() < 0.45 else draw.choice([some] * 18 + [0, session.rows + 1]))
    return bytes(code), ''.join(lines).encode()


def main():
    crate = Path(sys.argv[-1])
    code, text = played()
    if '--check' in sys.argv:
        same = (crate / 'stdin').read_bytes() == code and (crate / 'stdout').read_bytes() == text
        print('journal_sessions:', 'same' if same else 'different')
        sys.exit(0 if same else 1)
    (crate / 'stdin').write_bytes(code)
    (crate / 'stdout').write_bytes(text)
    answers = [line.split()[0] for line in text.decode().split('\n') if line]
    print(len(code), 'bytes', len(answers), 'calls', {n: answers.count(n) for n in sorted(set(answers), key=int)})


if __name__ == '__main__':
    main()
