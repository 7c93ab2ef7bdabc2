"""Document 01's whole case and its limits, each with the line that the document gives, worked out by hand.

`limits.py FOLDER` writes the inputs as FOLDER/1, FOLDER/2 and so on, all of them framed as FOLDER/cases, and FOLDER/lines.
"""
import pathlib
import struct
import sys


def parcel(rows):
    """The parcel of rows given as (depth, label)."""
    words = [len(rows), *(label for _, label in rows), *(depth for depth, _ in rows)]
    first = second = 0
    for word in words:
        first = (first + word) % 2**32
        second = (second + first) % 2**32
    n = len(rows)
    return struct.pack(f"<{n + 2}I{n}H3I", *words[: n + 1], n, *words[n + 1 :], 2, first, second)


def flat(rows, label=0):
    return [(0, label)] * rows


def chain(last):
    """Each row beneath the one before it, down to this depth."""
    return [(depth, 0) for depth in range(last + 1)]


def images(first, last):
    return " ".join(map(str, range(first, last + 1)))


# 32 + 38 bytes: labels 10 20, depths 0 1, sums 33 and 111; labels 10 30 20, depths 0 1 2, sums 66 and 315.
WHOLE_CASE = bytes.fromhex(
    "02000000 0a000000 14000000 02000000 0000 0100 02000000 21000000 6f000000"
    "03000000 0a000000 1e000000 14000000 03000000 0000 0100 0200 02000000 42000000 3b010000"
)

# A parcel of 256 rows has 1,556 bytes, so the listing's count stands at offset 1,556.
TABLES = [
    (flat(256), flat(4096), "included 256 0 " + images(1, 256)),
    (flat(257), flat(4096), "refused 16 0"),
    (flat(256), flat(4097), "refused 16 1556"),
    (flat(257), flat(4097), "refused 16 0"),
    (flat(256), flat(255), "absent 255 0"),
    # the longest line: all 256 images have four digits
    (flat(256), flat(3840, label=1) + flat(256), "included 256 0 " + images(3841, 4096)),
    (chain(63), chain(63), "included 1 0 " + images(1, 64)),
    (chain(64), chain(63), "refused 5 65"),
    (chain(63), chain(64), "refused 9 65"),
    (chain(64), chain(64), "refused 5 65"),
]

cases = [(WHOLE_CASE, "included 1 0 1 3")]
cases += [(parcel(recipe) + parcel(listing), line) for recipe, listing, line in TABLES]
assert len(WHOLE_CASE) == 70 and max(len(line) + 1 for _, line in cases) == 1295

folder = pathlib.Path(sys.argv[1])
for number, (case, _) in enumerate(cases, 1):
    (folder / str(number)).write_bytes(case)
(folder / "cases").write_bytes(b"".join(struct.pack("<I", len(case)) + case for case, _ in cases))
(folder / "lines").write_text("".join(line + "\n" for _, line in cases))
