"""Compressed blocks of OASIS: unpacked by zlib and read record by record, for the second implementation, and written."""
import zlib

from lib.answers import Refused
from lib.assembler import unsigned

CBLOCK = 34
# The records that no block has inside.
OUTER = (1, 2, CBLOCK)
# The greatest number of bytes of a file, and of all its blocks together.
MOST_BYTES = 2**32 - 1


def unpacked(reader, packed, count):
    """The bytes that the packed ones spell, which must be exactly `count`.

    Of bytes that are no stream and have too many bytes before that shows, lvl reports 42 or 43, by what it sees first.
    """
    stream, out, is_stream = zlib.decompressobj(-15), b"", True
    try:
        for at in range(len(packed)):
            out += stream.decompress(packed[at:at + 1])
    except zlib.error:
        is_stream = False
    if not (is_stream and stream.eof) and len(out) > count:
        refuse_either(reader)
    reader.refuse_if(not (is_stream and stream.eof), 42, "Deflate")
    reader.refuse_if(len(out) != count or stream.unused_data, 43, "BlockLength")
    return out


def refuse_either(reader):
    """Refuses a block by 42 or 43."""
    either = (["42", "Deflate"], ["43", "BlockLength"])
    place = ["at", str(reader.begun)]
    refused = Refused("oasis", 42, "Deflate", allows=lambda words: words[:2] in either and words[2:] == place)
    refused.args = ("oasis",)
    raise refused


def take_records(reader, data):
    """Reads the records inside; what is wrong there is refused at the offset of the block."""
    outside = reader.data, reader.at
    reader.data, reader.at, reader.inside = data, 0, True
    try:
        while reader.at < len(data):
            id = reader.unsigned()
            reader.judge(id)
            reader.record(id)
    except Refused as refused:
        reader.refuse_if(refused.number == 1, 43, "BlockLength")
        raise
    reader.data, reader.at = outside
    reader.inside = False


def take(reader, packed_bytes):
    """Reads a CBLOCK after its id; `packed_bytes` reads a b-string."""
    reader.refuse_if(reader.unsigned() != 0, 41, "CompressionType")
    count = reader.unsigned()
    packed = packed_bytes()
    reader.refuse_if(count > reader.room, 11, "TooLong")
    reader.room -= count
    take_records(reader, unpacked(reader, packed, count))


STRATEGIES = (zlib.Z_DEFAULT_STRATEGY, zlib.Z_FILTERED, zlib.Z_HUFFMAN_ONLY, zlib.Z_RLE, zlib.Z_FIXED)


def written(records, level=9, strategy=zlib.Z_DEFAULT_STRATEGY):
    """A CBLOCK of these records."""
    packer = zlib.compressobj(level, zlib.DEFLATED, -15, 9, strategy)
    packed = packer.compress(records) + packer.flush()
    return unsigned(CBLOCK) + unsigned(0) + unsigned(len(records)) + unsigned(len(packed)) + packed


def parted(rng, records, share=0.7, change=lambda records: records):
    """The records, some runs of them in blocks of any level and strategy; `change` is done to what is inside."""
    out, at = b"", 0
    while at < len(records):
        run = rng.choice([0, 1, 1, 2, 3, 8, 1000])
        inside = b"".join(records[at:at + run])
        at += run
        if rng.random() < share:
            out += written(change(inside), rng.randint(0, 9), rng.choice(STRATEGIES))
        else:
            out += inside
    return out
