"""Reads `*.rows`: tables of rows, each of which is a line of the program and what it prints.

    # A comment. Templates before the first table hold for all tables of the file.

    == The title of a table
    first: square.gds {1}
    second: square.gds
    line: compare first second
    last: {2}

    the name of a row | 139=09 147=09 | differ: layer 1 datatype 0 square 0 9 only in second

A table has templates, an empty line, and rows. The columns of a row are separated by ` | `; `{1}`, `{2}`, .. in a
template stand for them, and `{0}` for the first, which is the name of the row. A line that ends in `\\` goes on in
the next one, whose first blanks are dropped. These are the keys of templates:

    line       the words of the command line, quoted as in a shell; in quotes `\\n` and `\\xFF` are as in `out`. The
               rows of a table with several lines are run with each of them; what follows a `line` holds for it
               alone, but files and `for` hold for all
    out, err   what is printed there, with `\\n` for line feeds, `\\xFF` for a byte, and the texts of words.py; without
               `err` nothing is printed there, and `err: *` is any lines that begin with `lvl: `. A text that ends in
               ` *` is the beginning of what is printed
    last       in place of `out`, the last line. A comparison with a verdict has two head lines before it; a refusal
               stands alone
    heads      the two heads before `last`, separated by ` / `, where they are not those that the files' bytes say
    text       in place of `out`, the file in tests/texts that has it
    status     the exit status, where it isn't that of the last line: 0, 1 after `differ: `, 2 after `refused: `
    pieces     the row is run again for each of these numbers, with reads that give at most so many bytes
    for        `k M N`: the row is run for each number from M up to N, but not N, for which `{k}` stands
    failing    `NAME N`: the read of the file NAME fails after N bytes, with EIO, or with an error that a third word
               names; it isn't read again, and no file after it is read
    reads      `NAME N ..`: the file NAME is read at most N times, and not after its end
    unopened   `NAME EACCES`: the file NAME can't be opened, with this error
    opens      so many files are opened, those among them that are looked at again after a refusal
    input      the name of the file that is standard input; the row is run with the file, and with a pipe
    output     `closed`, `full` or `broken`: standard output is closed, a full disk, or a pipe that nobody reads;
               `room N`: a file that takes N bytes
    errors     `room N`: standard error is a file that takes N bytes
    terminal   standard error is a terminal of this kind
    progress   `NAME TEXT`: on standard error are the percents of the file NAME up to 100, and then the text
    megabytes  `NAME 1 2`: on standard error are so many megabytes of the file NAME
    exchanged  `yes`: the row is run again with both files of the line exchanged, and the sides turned in what is
               printed
    same-for   kinds of files: the row is run for each of them, which is the kind of the files that are a `layout`
    growths    `yes`: `make growths` also runs these rows, with each allocation refused in turn
               (`memory`: it runs them with ample memory, of which they take no more than .ci/memory says)

Any other key is the name of a file in the folder where the program runs; words.py says how it is written.
"""
import collections
import glob
import os
import re
import shlex
from collections import namedtuple

import words
from words import texts, unescaped

HERE = os.path.dirname(os.path.abspath(__file__))
MORE = ["failing", "reads", "unopened", "opens", "input", "output", "errors", "terminal", "progress", "megabytes"]
OF_LINE = {"line", "out", "err", "last", "heads", "text", "status", "pieces", "exchanged", *MORE}
KEYS = OF_LINE | {"for", "same-for", "growths"}
STATUSES = [("differ: ", 1), ("refused: ", 2)]
# The words of sides that the exchange of both files turns, in pairs; each pattern is tried at the same place.
TURNED = [
    (r"^refused: (first|second): ", {"first": "second", "second": "first"}),
    (r" only in (first|second)$", {"first": "second", "second": "first"}),
    (r"the (first|second) file", {"first": "second", "second": "first"}),
    (r"(--top-a|--top-b)\b", {"--top-a": "--top-b", "--top-b": "--top-a"}),
]

# The templates of a table are a list: those of files and of all lines first, then those of each line.
Table = namedtuple("Table", "file title templates rows")
# A line of the program: its words, files by name, what it prints, and the templates of MORE that it has.
Run = namedtuple("Run", "words files out err status more pieces")
# A row of a table, whose runs aren't made yet.
Listed = namedtuple("Listed", "label table columns")


class Wrong(Exception):
    """Something is wrong with a file of rows."""


def joined(path):
    """The lines of a file without comments, those that go on in the next one joined; each with its number."""
    with open(path, encoding="utf-8") as file:
        held, begun = "", 0
        for number, line in enumerate(file, 1):
            line = line.rstrip("\n")
            if not held and line.startswith("#"):
                continue
            begun = begun if held else number
            held += line.lstrip() if held else line
            if (len(held) - len(held.rstrip("\\"))) % 2:
                held = held[:-1]
                continue
            yield begun, held
            held = ""


def tables(path):
    """The tables of a file."""
    shared, found, in_rows = [{}], [], False
    for number, line in joined(path):
        if line.startswith("== "):
            found.append(Table(path, line[3:].rstrip("."), [dict(each) for each in shared], []))
            in_rows = False
        elif not line.strip():
            in_rows = bool(found)
        elif in_rows:
            found[-1].rows.append([column.strip() for column in re.split(r" \|(?= |$)", line)])
        else:
            key, colon, value = line.partition(":")
            if not colon:
                raise Wrong("%s, line %d: no template: %s" % (path, number, line))
            add_template(found[-1].templates if found else shared, unescaped(key).decode(), value.strip())
    return found


def add_template(templates, key, value):
    """Adds a template of the last line, or of all lines if it is of a file."""
    if key == "line" and templates[-1].get("line") is not None:
        templates.append({})
    templates[-1 if key in OF_LINE else 0][key] = value


def of_lines(templates):
    """For each line all templates that hold for it."""
    everywhere = {key: value for key, value in templates[0].items() if key not in OF_LINE}
    return [{**everywhere, **of_line} for of_line in templates]


def filled(template, columns):
    """A template with the columns of a row in their places."""
    return re.sub(r"\{(\d+)\}", lambda found: columns[int(found[1])], template)


def ending(out):
    """The exit status of a run that prints this."""
    last = out.rstrip(b"\n").rsplit(b"\n", 1)[-1].decode("utf-8", "replace")
    return next((status for front, status in STATUSES if last.startswith(front)), 0)


def with_heads(last, given, files):
    """All lines of a comparison with this last one."""
    if last.startswith("refused: ") or not given[0].startswith("compare "):
        return last + "\n"
    if given[1]:
        heads = given[1].split(" / ")
    else:
        names = [word for word in line_words(given[0])[1:] if word in files or word == "-"][:2]
        names = [given[2] if name == "-" else name for name in names]
        heads = [words.head(files[name]) for name in names]
    return "first: %s\nsecond: %s\n%s\n" % (*heads, last)


def printed(table, said, files):
    """What a row prints on standard output."""
    if "text" in said:
        with open(os.path.join(HERE, "texts", said["text"]), "rb") as file:
            return file.read()
    if "last" in said:
        line = texts(said["last"], files)
        return unescaped(with_heads(line, (said["line"], said.get("heads"), said.get("input")), files))
    if "out" not in said:
        raise Wrong("%s: %s: neither out nor last" % (table.file, table.title))
    return unescaped(texts(said["out"], files))


def run_of(table, said):
    """The run of a row's filled templates."""
    files = {name: words.file(value) for name, value in said.items() if name not in KEYS}
    out = printed(table, said, files)
    err = said.get("err", "")
    status = int(said["status"]) if said.get("status") else ending(out)
    err = None if err == "*" else unescaped(texts(err, files))
    pieces = [int(size) for size in said.get("pieces", "").split()]
    more = {key: said[key].split() for key in MORE if said.get(key)}
    return Run(line_words(said["line"]), files, out, err, status, more, pieces)


def line_words(line):
    """The words of a command line, as text or bytes."""
    found = [unescaped(word) for word in shlex.split(texts(line, {}))]
    return [word.decode() if word.isascii() else word for word in found]


def turned_lines(text):
    """A text with both sides exchanged."""
    head = re.match(rb"first: (.*)\nsecond: (.*)\n", text)
    if head:
        return b"first: %s\nsecond: %s\n" % head.groups()[::-1] + turned_lines(text[head.end():])
    out = text.decode("latin-1")
    for pattern, other in TURNED:
        out = re.sub(pattern, lambda it: it[0].replace(it[1], other[it[1]]), out, flags=re.MULTILINE)
    out = re.sub(r"differ: (.*) in the (?:first|second) file, (.*) in the (?:first|second)$",
                 r"differ: \2 in the first file, \1 in the second", out, flags=re.MULTILINE)
    return out.encode("latin-1")


def exchanged(run):
    """The same run with both files exchanged."""
    command, first, second, *options = run.words
    other = {"--top-a": "--top-b", "--top-b": "--top-a"}
    options = [re.sub(r"^--top-[ab]\b", lambda it: other[it[0]], word) for word in options]
    err = run.err and turned_lines(run.err)
    return run._replace(words=[command, second, first, *options], out=turned_lines(run.out), err=err)


def listed_of(table):
    """The rows of a table, by their labels."""
    for columns in table.rows:
        label = "%s: %s: %s" % (os.path.basename(table.file), table.title, columns[0])
        if len(columns) != len(table.rows[0]):
            raise Wrong("%s: it has %d columns, and the first row %d" % (label, len(columns), len(table.rows[0])))
        yield Listed(label, table, columns)


def listed(patterns=()):
    """All rows in the files of this folder whose label has one of the patterns; all, if there is none."""
    paths = sorted(glob.glob(os.path.join(HERE, "*.rows")))
    found = [row for path in paths for table in tables(path) for row in listed_of(table)]
    labels = collections.Counter(row.label for row in found)
    if twice := [label for label, count in labels.items() if count > 1]:
        raise Wrong("%s: twice" % twice[0])
    return [row for row in found if not patterns or any(pattern in row.label for pattern in patterns)]


def numbered(said):
    """The templates for each of the numbers of `for`."""
    if "for" not in said:
        return [said]
    name, low, high = said["for"].split()
    return [{key: value.replace("{%s}" % name, str(k)) for key, value in said.items() if key != "for"}
            for k in range(int(low), int(high))]


def spelled(said):
    """The templates for each of the kinds of `same-for`."""
    kinds = said.get("same-for", "").split()
    return [{key: re.sub(r"^layout\b", kind, value) if key not in KEYS else value for key, value in said.items()}
            for kind in kinds] or [said]


def row_of(listed):
    """The runs of a row."""
    runs = []
    for templates in of_lines(listed.table.templates):
        said = {key: filled(value, listed.columns) for key, value in templates.items()}
        found = [run_of(listed.table, each) for numbers in numbered(said) for each in spelled(numbers)]
        runs += found + ([exchanged(run) for run in found] if said.get("exchanged") == "yes" else [])
    return runs


def made(listed):
    """The runs of a row; what is wrong with it names the row."""
    try:
        return row_of(listed)
    except (ValueError, LookupError, OSError, SyntaxError) as wrong:
        raise Wrong("%s: %s %s" % (listed.label, type(wrong).__name__, wrong)) from wrong
