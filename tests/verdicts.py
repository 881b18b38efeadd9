"""The verdict of a comparison, by the second implementation of the rules in tools/lib."""
from lib import answers, gds_reader, oasis_reader, spelling
from lib.answers import NOTHING


def drawn(data, top):
    """The rings that a file places, by Layer."""
    reader = oasis_reader if data[:1] == b"%" else gds_reader
    cells = reader.read(data, NOTHING).cells
    return answers.placed_rings(cells, answers.top_of(cells, top), {})


def layer(text):
    return tuple(map(int, text.split("/")))


def mapped(rings, text):
    """The rings on the Layers to which a map of Layers sends them."""
    targets = dict(map(layer, pair.split("=")) for pair in text.split(",")) if text else {}
    found = {}
    for source, listed in rings.items():
        found.setdefault(targets.get(source, source), []).extend(listed)
    return found


def seen(rings, text):
    """The rings clipped to a window."""
    if not text:
        return rings
    spans = [tuple(map(int, span[2:].split(".."))) for span in text.split(",")]
    for axis, (low, high) in enumerate(spans):
        rings = {on: [spelling.clipped(ring, axis, low, high) for ring in listed] for on, listed in rings.items()}
    return rings


def verdict(words, files):
    """The last line of `compare`, from two names of files and options."""
    first, second, *options = words.split()
    given = dict(zip(options[::2], options[1::2]))
    ours, theirs = drawn(files[first], given.get("--top-a")), drawn(files[second], given.get("--top-b"))
    window = given.get("--window")
    return answers.verdict(seen(ours, window), seen(mapped(theirs, given.get("--map")), window))
