"""The digest of a mask by hashlib, from the rectangles that its layers are drawn with.

The corners are found by testing squares. The bytes of a Layer are "layer L datatype D", a line feed, and for each
corner, in order of x and then y: x and y in eight bytes and the change in one, in two's complement, high byte
first. The change at a point is the number of covered squares among its upper right and lower left neighbours, less
the number among its upper left and lower right ones; a corner is a point where it isn't 0. The digest of a mask is the
SHA-256 of the lines of its Layers.
"""
import hashlib


def is_covered(rectangles, x, y):
    return any(x0 <= x < x1 and y0 <= y < y1 for x0, y0, x1, y1 in rectangles)


def corners(rectangles):
    """The corners as (x, y, change); each is at an abscissa and an ordinate of the rectangles."""
    for x in sorted({x for x0, _, x1, _ in rectangles for x in (x0, x1)}):
        for y in sorted({y for _, y0, _, y1 in rectangles for y in (y0, y1)}):
            at = [[is_covered(rectangles, x - left, y - down) for down in (0, 1)] for left in (0, 1)]
            change = at[0][0] + at[1][1] - at[1][0] - at[0][1]
            if change != 0:
                yield x, y, change


def layer_bytes(layer, datatype, found):
    spelled = b"".join(
        x.to_bytes(8, "big", signed=True) + y.to_bytes(8, "big", signed=True) + change.to_bytes(1, "big", signed=True)
        for x, y, change in found
    )
    return f"layer {layer} datatype {datatype}\n".encode() + spelled


def lines(layers):
    """What `lvl digest` prints after the top of a mask, {(layer, datatype): rectangles}."""
    return lines_of({layer: list(corners(rectangles)) for layer, rectangles in layers.items()})


def lines_of(layers):
    """The same, of the corners in order, {(layer, datatype): corners}."""
    text = ""
    for (layer, datatype), found in sorted(layers.items()):
        if found:
            digest = hashlib.sha256(layer_bytes(layer, datatype, found)).hexdigest()
            text += f"layer {layer} datatype {datatype} corners {len(found)} sha256 {digest}\n"
    return text + f"mask sha256 {hashlib.sha256(text.encode()).hexdigest()}\n"
