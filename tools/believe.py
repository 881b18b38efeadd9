#!/usr/bin/env python3
"""Writes docs/BELIEVE*.md: every definition that the headline stands on, as it is written, each after those it names.

The pages begin with the names in the contracts of `lvl` and `lvl_job`, and go from each definition to those that it
names: in `specs/`, in the types of the code, and in the two traits of lvl_io. What is written by hand at the front of a
page is in tools/believe/. With `--check` nothing is written: it fails if a page isn't what would be written, if a
definition has no comment or comes before one that it names, or if one of a format names no section of its standard and
isn't an own rule.
"""

import re
import sys

from lib.definitions import CRATES, ROOT, Book, name_of

FRONTS = ROOT / "tools" / "believe"
DOCS = ROOT / "docs"

# The subjects of the page of what is drawn, in reading order, and the modules of each.
DRAWN = {
    "Squares and windings": ["lvl_grid"],
    "Maps": ["lvl_grid.specs.Turn"],
    "Paths": ["lvl_path"],
    "Libraries": ["lvl_names", "lvl_cells.specs.Cells"],
    "Coverage": ["lvl_cells.specs.Coverage", "lvl_region"],
    "Soundness": ["lvl_cells.specs.Soundness"],
    "What fits": ["lvl_profile", "lvl_cells"],
    "Readers, and streams of records": ["lvl_io", "lvl_grammar"],
    "Views": ["lvl_grid.specs.Clip", "lvl_view", "lvl_columns", "lvl_compare"],
    "Same and differ": ["lvl"],
    "Texts and statuses": ["lvl_report", "lvl_job"],
}

ANSWERS = {
    "Why a library is refused": [
        "lvl_io", "lvl_refusal", "lvl_profile", "lvl_names", "lvl_path", "lvl_cells", "lvl_flat",
    ],
    "Why a stream is refused": ["lvl_grammar"],
    "GDSII": ["gds_"],
    "OASIS": ["oasis_"],
    "Digests": ["lvl_corners"],
    "Reasons": ["lvl_grid", "lvl_why", "lvl_witness"],
    "Views": ["lvl_view", "lvl_count"],
    "Grid steps": ["lvl_units"],
    "Answers": ["lvl"],
}

LINE = {
    "Words, and the texts that they are": ["lvl_line", "lvl_profile", "lvl_view", "lvl_list"],
    "Grid steps, and what else is answered": ["lvl_units", "lvl_count", "lvl_cells", "oasis_figures", "lvl"],
    "Texts": ["lvl_text", "lvl_report"],
    "Jobs": ["lvl_job"],
}

# The pages of the first part that have crates of their own, by the beginnings of their names.
FORMATS = {"BELIEVE-GDSII": "gds_", "BELIEVE-OASIS": "oasis_", "BELIEVE-DEFLATE": "lvl_inflate"}
COMPARED = [
    ("lvl/src/compare.rt", "compare_layouts", {"same", "differ"}),
    ("lvl/src/compare.rt", "compare_view", {"verdict", "whole"}),
]

# The parts: the page and its subjects, the contracts with the clauses (None: all) and the definitions and traits beside
# these with which it begins. A part has what no part before it has.
PARTS = [
    ("BELIEVE", DRAWN, COMPARED, [
        ("lvl_report.specs.Texts", "verdict_text"),
        ("lvl_report.specs.Writing", "verdict_status"),
        ("lvl_report.specs.Writing", "status_code"),
        ("lvl_job.specs.Ends", "fault_code"),
        ("lvl_io", "Read"),
        ("lvl_io", "Write"),
    ]),
    ("BELIEVE-REFUSALS", ANSWERS, [
        ("lvl/src/compare.rt", "compare_layouts", None),
        ("lvl/src/compare.rt", "compare_view", None),
        ("lvl/src/compare.rt", "compare_files", None),
        ("lvl/src/digest.rt", "digest_file", None),
        ("lvl/src/digest.rt", "digests_decide", None),
        ("lvl/src/layout.rt", "widening_keeps", None),
    ], []),
    ("BELIEVE-LINE", LINE, [("lvl_job/src/line.rt", "do_line", None), ("lvl_job/src/job.rt", "code_of", None)], [
        ("lvl_job", "Files"),
    ]),
]

# What names a section of a page's standard.
STANDARDS = {
    "BELIEVE-GDSII": re.compile(r"GDSII Stream Format Manual, Release 6,?\s*([^);.]*(?:\"|[A-Z]{4})[^);:.]*)"),
    "BELIEVE-OASIS": re.compile(r"SEMI P39(?: OASIS 1\.0)?,?\s*([^);:.]*(?:\"[A-Z]|section of each)[^);:.]*)"),
    "BELIEVE-DEFLATE": re.compile(r"(RFC 1951[^);:]*)"),
}
CRATE_ORDER = [row.split(":")[0] for row in (ROOT / "crates.txt").read_text().splitlines()]
OWN = re.compile(r"own (rule|notation)", re.I)


class Page:
    """A page: its name, and its definitions by subject."""

    def __init__(self, name, subjects):
        self.name = name
        self.subjects = subjects
        self.definitions = []
        self.order = []

    def subject_of(self, book, definition):
        """The title under which a definition comes."""
        module = name_of(definition.file)
        if self.subjects:
            fits = [(len(begin), title) for title, begins in self.subjects.items() for begin in begins
                    if begin in (module, definition.crate) or begin.endswith("_") and module.startswith(begin)]
            return max(fits)[1]
        return section_of(self.name, book.modules[module].head) if module in book.modules else "Types"


def section_of(name, text):
    """The first section of the page's standard that a text names."""
    found = STANDARDS[name].search(text)
    if not found:
        return "Own rules and notation"
    quoted = re.match(r'.*?"([^"]+)"', found.group(1), re.S)
    title = " ".join((quoted or found).group(1).split())
    return title[0].upper() + title[1:]


def pages_of(book):
    """All pages, with the definitions of each, as they are found from the contracts."""
    known = {}
    pages = []
    for name, subjects, contracts, names in PARTS:
        roots = [root for contract in contracts for root in book.contract(*contract)[1]]
        roots += [book.find(module, one) if "." in module else book.type_of(module, one) for module, one in names]
        found = book.below(roots, known)
        known.update(found)
        formats = [Page(one, None) for one in FORMATS] if name == "BELIEVE" else []
        main = Page(name, subjects)
        for definition in found.values():
            of_format = [page for page in formats if definition.crate.startswith(FORMATS[page.name])]
            (of_format or [main])[0].definitions.append(definition)
        move_types(book, main, formats)
        pages += [main] + formats
    return pages


def move_types(book, main, formats):
    """Moves each type that a page of a format alone names to that page."""
    named = {d.key for one in main.definitions for d in book.named_by(one)}
    for page in formats:
        there = {d.key for one in page.definitions for d in book.named_by(one)}
        for definition in [d for d in main.definitions if d.is_code and d.key in there - named]:
            main.definitions.remove(definition)
            page.definitions.append(definition)


def files_of(page):
    """The files of `specs/` that a page has definitions of, and these in their order there."""
    files = {}
    for definition in sorted(page.definitions, key=lambda d: d.line):
        if not definition.is_code:
            files.setdefault(definition.file, []).append(definition)
    return files


def in_reading_order(book, page):
    """The titles of a page, and for each its files in an order in which they come after those that they name."""
    files = files_of(page)
    needs = {file: {other.file for d in ds for other in book.named_by(d)} & set(files) - {file}
             for file, ds in files.items()}
    titles = {file: page.subject_of(book, ds[0]) for file, ds in files.items()}
    order = []
    while len(order) < len(files):
        ready = [file for file in files if file not in order and needs[file] <= set(order)]
        if not ready:
            raise SystemExit(f"{page.name}: files name each other")
        waiting = [titles[file] for file in files if file not in order + ready]
        last = titles[order[-1]] if order else None
        order.append(min(ready, key=lambda file: priority(page, file, titles[file], last, waiting)))
    return [(titles[file], file, files[file]) for file in order]


def priority(page, file, title, last, waiting):
    """Which of the files that may come next comes: by subject, or else one under the last title, or of a low crate."""
    crate = CRATE_ORDER.index(file.relative_to(CRATES).parts[0])
    if page.subjects:
        return list(page.subjects).index(title), crate, str(file)
    return title != last, crate, waiting.count(title), str(file)


def with_types(book, page, definition, done):
    """A definition after the types and traits of the page that it names and that weren't shown yet."""
    if definition in done or definition not in page.definitions:
        return []
    done.add(definition)
    before = [other for other in book.named_by(definition) if other.is_code]
    return [d for other in before for d in with_types(book, page, other, done)] + [definition]


def arrange(book, page):
    """Puts the definitions of a page in order: a title, a file, and what comes there."""
    done = set()
    for title, file, definitions in in_reading_order(book, page):
        shown = [d for one in definitions for d in with_types(book, page, one, done)]
        page.order.append((title, file, shown))
    for definition in [d for d in page.definitions if d.is_code]:
        shown = with_types(book, page, definition, done)
        title = page.subject_of(book, definition)
        at = [i for i, (other, _, _) in enumerate(page.order) if other == title]
        if shown:
            page.order.insert(at[-1] + 1 if at else len(page.order), (title, definition.file, shown))


def anchor(file):
    """The anchor of the heading of a file."""
    return re.sub(r"[^\w-]", "", str(file.relative_to(CRATES)).lower())


def shown(definition):
    """A definition under its comment."""
    kind = "rust" if definition.is_code else ""
    return f"**`{definition.name}`**: {definition.comment}\n\n```{kind}\n{definition.text}\n```\n"


def table(constants):
    """Constants as a table."""
    rows = ["| Name | Value | |", "|---|---|---|"]
    for d in constants:
        rows.append(f"| `{d.name}` | `{d.constant()}` | {d.comment or character(d)} |")
    return "\n".join(rows) + "\n"


def character(definition):
    """The character of which a constant without a comment is the code, or nothing."""
    value = definition.constant() or ""
    return f"`{chr(int(value))}`" if re.fullmatch(r"\d+", value) and 32 < int(value) < 127 else ""


def blocks(definitions):
    """The definitions of a file as they are shown, with neighbouring constants in one table."""
    rows = []
    run = []
    for definition in definitions:
        if definition.constant():
            run.append(definition)
            continue
        rows += [table(run)] if run else []
        run = []
        rows.append(shown(definition))
    return rows + ([table(run)] if run else [])


def places_of(pages):
    """Where the pages have each definition: the page, and the heading there."""
    return {d.key: f"{page.name}.md#{anchor(file)}" for page in pages for _, file, ds in page.order for d in ds}


def foreign(book, places, page, file, texts):
    """What names in texts of a file mean that are others elsewhere, in several places, or on another page."""
    several = [name for _, name in places]
    rows = {}
    for here, (module, there, definition) in book.used(file, texts).items():
        place = places.get(definition.key) if definition else None
        if here == there and (not place or place.startswith(f"{page.name}.md") and several.count(here) < 2):
            continue
        name = f"`{here}`" if here == there else f"`{here}` (`{there}`)"
        if definition and definition.name != there:
            if here == there:
                continue
            name += f" of `{definition.name}`"
        where = f"[{definition.file.relative_to(CRATES)}]({place})" if place else f"`{module}`"
        rows.setdefault(where.replace(f"({page.name}.md#", "(#"), []).append(name)
    return "; ".join(f"{', '.join(names)} in {where}" for where, names in rows.items())


def body(book, places, page):
    """The definitions of a page under its titles."""
    rows = []
    last = None
    for title, file, definitions in page.order:
        if title != last:
            rows += clauses(book, places, page) if last == "Same and differ" else []
            rows.append(f"## {title}\n")
        last = title
        path = file.relative_to(CRATES)
        rows.append(f"### [{path}](../crates/{path})\n")
        module = book.modules.get(name_of(file))
        if module and module.head:
            rows.append(module.head + "\n")
        elsewhere = foreign(book, places, page, file, [d.text for d in definitions if d.file == file])
        rows += [f"Names: {elsewhere}.\n"] if elsewhere else []
        rows += blocks(definitions)
    return "\n".join(rows)


def clauses(book, places, page):
    """The clauses of the headline."""
    rows = ["### The clauses\n"]
    for file, function, names in COMPARED:
        kept, _ = book.contract(file, function, names)
        elsewhere = foreign(book, places, page, CRATES / file, [kept])
        rows.append(f"Of `{function}` ([{file}](../crates/{file})). Names: {elsewhere}.\n")
        rows.append(f"```rust\n{kept}\n```\n")
    return rows


def names_table(pages):
    """The table of PROOF.md, with links from its files to where the pages have them."""
    places = {str(file.relative_to(CRATES)): f"{page.name}.md#{anchor(file)}"
              for page in pages[::-1] for _, file, _ in page.order}
    rows = []
    for row in re.search(r"(?:^\| .*\n|^\|-.*\n)+", (DOCS / "PROOF.md").read_text(), re.M).group().splitlines():
        folder = ""
        for path in re.findall(r"`([\w/]+\.antt)`", row):
            folder = path.rsplit("/", 1)[0] if "/" in path else folder
            whole = path if "/" in path else f"{folder}/{path}"
            if whole in places:
                row = row.replace(f"`{path}`", f"[`{path}`]({places[whole].removeprefix('BELIEVE.md')})")
        rows.append(row)
    return "\n".join(rows)


def counts(pages):
    """A table of how many definitions each page has, and how many lines they are."""
    rows = ["| Page | Definitions | Lines | Types of the code |", "|---|---|---|---|"]
    for page in pages:
        made = [d for d in page.definitions if not d.is_code]
        rows.append(f"| [{page.name}]({page.name}.md) | {len(made)} | {sum(d.lines for d in made):,} "
                    f"| {len(page.definitions) - len(made)} |")
    return "\n".join(rows)


def library_words(words):
    """The words of Rattle's library and of the kit that the definitions use, by module."""
    rows = ["## Words of Rattle's library and of the kit\n", "These are explained in the library and the kit.\n"]
    for module in sorted(words):
        if module.split(".")[0] == "std" or not (CRATES / module.split(".")[0]).is_dir():
            rows.append(f"- `{module}`: " + ", ".join(f"`{word}`" for word in sorted(words[module])))
    return "\n".join(rows) + "\n"


def text_of(book, pages, places, page):
    """A page: what is written by hand, and the definitions."""
    front = (FRONTS / f"{page.name}.md").read_text().rstrip()
    front = front.replace("{names}", names_table(pages)).replace("{counts}", counts(pages))
    text = f"{front}\n\n{body(book, places, page)}"
    return text + ("\n" + library_words(book.words) if page.name == "BELIEVE" else "")


def names_section(book, definition):
    """Whether a definition of a format, or the head of its file, names a section of its standard or an own rule."""
    said = book.modules[name_of(definition.file)].head + " " + definition.comment
    standards = [STANDARDS[name] for name, begin in FORMATS.items() if definition.crate.startswith(begin)]
    return all(standard.search(said) or OWN.search(said) for standard in standards)


def faults(book, pages):
    """What is missing in the definitions of the pages, or comes too late."""
    for page in pages:
        definitions = [d for _, _, shown in page.order for d in shown]
        after = {d.key for d in definitions}
        for d in definitions:
            after.remove(d.key)
            place = f"{d.file.relative_to(ROOT)}:{d.line}: {d.name}"
            if not d.comment and not character(d):
                yield f"{place} has no comment"
            for other in book.named_by(d):
                if other.key in after:
                    yield f"{place} comes before {other.name} on {page.name}.md"
            if not d.is_code and not names_section(book, d):
                yield f"{place} names no section of its standard"


def main():
    book = Book()
    pages = pages_of(book)
    for page in pages:
        arrange(book, page)
    found = list(faults(book, pages))
    places = places_of(pages)
    for page in pages:
        file = DOCS / f"{page.name}.md"
        text = text_of(book, pages, places, page)
        if "--check" not in sys.argv:
            file.write_text(text)
        elif not file.exists() or file.read_text() != text:
            found.append(f"docs/{file.name} isn't what tools/believe.py writes")
    for fault in found:
        print(fault, file=sys.stderr)
    sys.exit(bool(found))


if __name__ == "__main__":
    main()
