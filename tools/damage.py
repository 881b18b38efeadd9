#!/usr/bin/env python3
"""Damages files at random, and checks the answers of `lvl` against a second implementation of the rules.

Each damaged file is shown, hashed, and compared with the undamaged one. The exit status, the standard output and
the standard error must be those that `answers.py` gives. The script stops at the first wrong answer and leaves both
files in the folder that it prints. If more than 1,500 rings are placed, the verdict itself and the digest are not
checked.

With `--decorate` the files have records that draw nothing, and each is answered without --ignore, with some words,
and with all. With `--blocks` records of OASIS are in compressed blocks, some of them damaged before they are packed,
and each file is answered with --unpack, and now and then without.
"""
import collections
import glob
import os
import random
import shutil
import subprocess
import sys
import tempfile

from lib import answers, gds, gds_reader, layout, oasis, oasis_blocks, oasis_reader, options, undrawn
from lib.answers import EVERYTHING, NOTHING, WORDS

WRITERS = {"gds": gds, "oas": oasis}
LARGE = [2**20 - 2, 2**20 - 1, 2**24 - 1, 2**32 - 1, 2**32, 2**62, 2**62 - 1, 2**63 - 1, 2**63, 2**64 - 2, 2**64 - 1]
EXTREME = [b"\x7F\xFF\xFF\xFF", b"\x80\0\0\0", b"\xFF\xFF\xFF\xFF", b"\0\1\0\0"]
ODD_BYTES = [0, 1, 2, 3, 4, 6, 8, 13, 14, 15, 16, 17, 18, 20, 21, 22, 0x40, 0x7F, 0x80, 0xFF]


class Traced(oasis_reader.Reader):
    """A reader that keeps the offset of each record."""

    def __init__(self, data):
        super().__init__(data, EVERYTHING, True)
        self.starts = []

    def judge(self, id):
        if not self.inside:
            self.starts.append(self.begun)
        super().judge(id)


def read(data, ignore):
    return (oasis_reader if data[:1] == b"%" else gds_reader).read(data, ignore)


def read_unpacked(data, ignore):
    return oasis_reader.read(data, ignore, True) if data[:1] == b"%" else gds_reader.read(data, ignore)


def starts_of(data):
    """The offsets of the records of an undamaged file, and the length of the file."""
    if data[:1] == b"%":
        reader = Traced(data)
        reader.library()
        return [0, 13, *reader.starts, len(data)]
    starts = [0]
    while starts[-1] + 4 <= len(data) and (length := int.from_bytes(data[starts[-1]:starts[-1] + 2], "big")):
        starts.append(starts[-1] + length)
    return starts if len(starts) > 1 else [0, len(data)]


def other_byte(rng, old):
    near = [old ^ 1 << rng.randrange(8), old + 1 & 255, old - 1 & 255]
    return rng.choice([rng.randrange(256), *near, rng.choice(ODD_BYTES)])


def changed_bytes(rng, data):
    out = bytearray(data)
    for _ in range(rng.choice([1, 1, 1, 2, 5])):
        at = rng.randrange(len(out))
        out[at] = other_byte(rng, out[at])
    return bytes(out)


def span(rng, data):
    at = rng.randrange(len(data))
    return at, min(len(data), at + rng.choice([1, 1, 2, 3, 4, 8, 30]))


def removed(rng, data):
    at, end = span(rng, data)
    return data[:at] + data[end:]


def inserted(rng, data):
    at, end = span(rng, data)
    to = rng.randrange(len(data) + 1)
    more = rng.choice([bytes(rng.choice(ODD_BYTES) for _ in range(end - at)), data[at:end], b"\x80" * 10])
    return data[:to] + more + data[to:]


def swapped(rng, data):
    (a, b), (c, d) = sorted([span(rng, data), span(rng, data)])
    return data if b > c else data[:a] + data[c:d] + data[b:c] + data[a:b] + data[d:]


def cut(rng, data):
    return data[:rng.randrange(len(data))]


def lengthened(rng, data):
    return data + rng.choice([b"\0" * rng.randint(1, 99), b"\1", b"\0\0\0\1", data])


def records_moved(rng, data):
    """One record removed, repeated, exchanged with another, or copied over another."""
    starts = starts_of(data)
    parts = [data[a:b] for a, b in zip(starts, starts[1:])] + [data[starts[-1]:]]
    one, other = rng.randrange(len(parts)), rng.randrange(len(parts))
    kind = rng.randrange(4)
    if kind == 0:
        del parts[one]
    elif kind == 1:
        parts.insert(other, parts[one])
    elif kind == 2:
        parts[one], parts[other] = parts[other], parts[one]
    else:
        parts[one] = parts[other]
    return b"".join(parts)


def heads_changed(rng, data):
    """The first bytes of a record changed: length, type and data type in GDSII; id, info or a count in OASIS."""
    out, at = bytearray(data), rng.choice(starts_of(data)[:-1])
    for _ in range(rng.choice([1, 1, 2])):
        place = min(len(out) - 1, at + rng.choice([0, 1, 1, 2, 3, 4, 5, 6, 7]))
        out[place] = rng.choice([rng.randrange(64), rng.choice(ODD_BYTES), rng.randrange(256), out[place] + 2 & 255])
    return bytes(out)


def values_changed(rng, data):
    """One or two bytes of a record changed, but not its head."""
    out, starts = bytearray(data), starts_of(data)
    which = rng.randrange(len(starts) - 1)
    first, end = starts[which] + (1 if data[:1] == b"%" else 4), starts[which + 1]
    for _ in range(rng.choice([1, 1, 2])) if first < min(end, len(out)) else ():
        at = rng.randrange(first, min(end, len(out)))
        out[at] = other_byte(rng, out[at])
    return bytes(out)


def number_grown(rng, data):
    """A byte of a record replaced by a large OASIS integer; in GDSII, four bytes by an extreme integer."""
    starts = starts_of(data)
    which = rng.randrange(len(starts) - 1)
    if data[:1] == b"%":
        at = rng.randrange(starts[which], max(starts[which] + 1, starts[which + 1]))
        return data[:at] + oasis.unsigned(rng.choice(LARGE)) + data[at + 1:]
    at = starts[which] + 4 * rng.randint(1, 6)
    return data[:at] + rng.choice(EXTREME) + data[at + 4:] if at + 4 <= len(data) else data


def undrawn_added(rng, data):
    """A record that draws nothing added between two others, where it may come or not."""
    at = rng.choice(starts_of(data)[1:])
    made = undrawn.oasis_record if data[:1] == b"%" else undrawn.gds_record
    return data[:at] + made(rng, EVERYTHING) + data[at:]


def groups_added(rng, data):
    """Zero groups, with or without a last one, added to what may be an integer."""
    at = rng.randrange(len(data))
    more = rng.choice([1, 8, 9, 10, 11, 100, 252, 253, 254, 255, 256])
    last = rng.choice([b"\0", b"\0", b"\0", b"\1", b"\x7F"])
    return data[:at] + bytes([data[at] | 0x80]) + b"\x80" * more + last + data[at + 1:]


DAMAGES = [
    changed_bytes, removed, inserted, swapped, cut, lengthened, records_moved, records_moved,
    heads_changed, heads_changed, values_changed, values_changed, values_changed, values_changed, number_grown,
    number_grown,
]
DECORATED_DAMAGES = [*DAMAGES, undrawn_added, undrawn_added, undrawn_added, groups_added]


def source(rng, form, ignore):
    """A file to damage: an example or a pseudo-random file."""
    kept = sorted(glob.glob(os.path.join(options.ROOT, "examples", "*." + form)))
    if rng.random() < 0.15:
        with open(rng.choice(kept), "rb") as file:
            return file.read()
    return WRITERS[form].written(rng, layout.made(rng), ignore)


def damaged(rng, data, damages):
    for _ in range(rng.choice([1, 1, 1, 2])):
        try:
            data = rng.choice(damages)(rng, data) if data else data
        except answers.Refused:
            pass
    return data


def answered(program, words):
    done = subprocess.run([program, *words], capture_output=True, timeout=600)
    return done.returncode, done.stdout.decode("latin-1"), done.stderr.decode("latin-1")


def with_blocks(rng, data):
    """An undamaged file with some of its records in blocks. A file with a signature would need another one."""
    starts = starts_of(data)
    records = [data[a:b] for a, b in zip(starts, starts[1:])]
    damage = (lambda inside: damaged_bytes(rng, inside)) if rng.random() < 0.5 else (lambda inside: inside)
    return b"".join(records[:2]) + oasis_blocks.parted(rng, records[2:-1], 0.7, damage) + records[-1]


def damaged_bytes(rng, inside):
    """Records of a block, now and then with a byte changed or cut off."""
    if not inside or rng.random() < 0.7:
        return inside
    return rng.choice([changed_bytes, changed_bytes, changed_bytes, removed, inserted, cut])(rng, inside)


def pair_of(rng, form, decorated, blocks):
    """A damaged file and the undamaged one: the options of their comparison, the files, and their tops."""
    whole = source(rng, form, frozenset(word for word in WORDS if rng.random() < 0.7) if decorated else NOTHING)
    start = with_blocks(rng, whole) if blocks else whole
    if not blocks or rng.random() < 0.7:
        start = damaged(rng, start, DECORATED_DAMAGES if decorated else DAMAGES)
    files = [start, whole]
    if rng.random() < 0.3:
        files.reverse()
    tops = [rng.choice([None, None, "TOP", "TOP", "A", "X"]), rng.choice([None, "TOP"])]
    words = [word for top, option in zip(tops, ("--top-a", "--top-b")) if top for word in (option, top)]
    return words, files, tops


def texts_of(rng, asked):
    """The texts of --ignore, None without it: none, some words in any order, and all."""
    if asked.plain or not asked.decorate:
        return [None]
    some = rng.sample(WORDS, rng.randint(1, len(WORDS) - 1))
    return [None, ",".join(some + some[:rng.choice([0, 0, 1])]), "all"]


def kind_of(answer):
    """The step, number and name of a refusal, or the first word of a verdict."""
    words = answer.text.split("\n")[-1].rstrip(":").split()
    if words[0] == "refused:":
        return " ".join(words[2:5])
    return words[0].rstrip(":") if len(answer.statuses) == 1 else "not judged"


def runs_of(names, words, files, tops, text, unpack):
    """The command lines, each with the answer that is right, under one text of --ignore."""
    ignore = answers.ignored(text) if text else NOTHING
    given = (["--ignore", text] if text else []) + ["--unpack"] * unpack
    top = ["--top", tops[0]] if tops[0] else []
    how = read_unpacked if unpack else read
    runs = [
        (["compare", *names, *words, *given], answers.compare(how, *files, tops, ignore)),
        (["show", names[0], *top, *given], answers.show(how, files[0], tops[0], ignore)),
        (["digest", names[0], *top, *given], answers.digest(how, files[0], tops[0], ignore)),
    ]
    named = list(zip(names, files))
    return [(line, answers.said(answer, named if line[0] == "compare" else named[:1])) for line, answer in runs]


def judged(asked, rng, names):
    """The kinds of the answers for a pair and None; or None and a message if an answer is wrong."""
    words, files, tops = pair_of(rng, asked.format, asked.decorate, asked.blocks)
    unpack = asked.blocks and rng.random() < 0.95
    for name, data in zip(names, files):
        with open(name, "wb") as out:
            out.write(data)
    kinds = []
    for text in texts_of(rng, asked):
        runs = runs_of(names, words, files, tops, text, unpack)
        for line, expected in runs:
            expected = expected._replace(hint="") if asked.plain else expected
            answer = answered(asked.program, line)
            if not answers.agrees(expected, *answer):
                return None, "%s\n  expected %s\n  answered %s" % (" ".join(line), expected, answer)
        kinds.append((text if text in (None, "all") else "some", kind_of(runs[0][1])))
    return kinds, None


def main():
    line = options.parser("Damages files at random, and checks the answers of lvl against a second implementation "
                          "of the rules.")
    line.add_argument("--format", choices=["gds", "oas"], default="gds", help="GDSII (the default) or OASIS")
    line.add_argument("--count", metavar="N", type=int, default=1000, help="the number of files (default: 1000)")
    line.add_argument("--seed", metavar="S", type=int, default=1, help="the first seed (default: 1)")
    line.add_argument("--decorate", action="store_true", help="add records that draw nothing, and give --ignore")
    line.add_argument("--blocks", action="store_true", help="of OASIS: put records in blocks, and give --unpack")
    options.add_older(line)
    asked = options.parsed(line)
    if asked.blocks and asked.format != "oas":
        line.error("--blocks goes with --format oas")
    folder = tempfile.mkdtemp(prefix="lvl-damage-")
    names = [os.path.join(folder, "a"), os.path.join(folder, "b")]
    outcomes = collections.Counter()
    for seed in range(asked.seed, asked.seed + asked.count):
        kind = "decorated " * asked.decorate + "blocks " * asked.blocks + asked.format
        key = "%s %d" % (kind, seed)
        kinds, wrong = judged(asked, random.Random(key), names)
        if wrong:
            sys.exit("seed %d in %s: %s" % (seed, folder, wrong))
        outcomes.update(kinds)
    shutil.rmtree(folder)
    print("%d damaged files, all answers right:" % asked.count)
    for (text, kind), many in outcomes.most_common():
        print("%7d %s%s" % (many, "--ignore %s: " % text if text else "", kind))


if __name__ == "__main__":
    main()
