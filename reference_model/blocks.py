"""Blocks of the basis kind, of which a basis file and a history are made: number, data, check."""

from reference_model.layout import BLOCK_DATA_LENGTH, BLOCK_LENGTH, CHECK_MODULUS, CHECK_WORDS
from reference_model.refusals import Refusal


def block_check(block):
    """The first 127 four-byte words, each times its place from 1, summed modulo 2^32."""
    words = (int.from_bytes(block[4 * i:4 * i + 4], "little") for i in range(CHECK_WORDS))
    return sum(place * word for place, word in enumerate(words, start=1)) % CHECK_MODULUS


def encode_blocks(data):
    """The blocks, numbered from 0, of data that fill a whole number of them."""
    assert len(data) % BLOCK_DATA_LENGTH == 0
    file = bytearray()
    for place in range(len(data) // BLOCK_DATA_LENGTH):
        part = data[BLOCK_DATA_LENGTH * place:BLOCK_DATA_LENGTH * (place + 1)]
        block = place.to_bytes(2, "little") + part
        file += block + block_check(block).to_bytes(4, "little")
    return bytes(file)


def blocks_of(file):
    return [file[start:start + BLOCK_LENGTH] for start in range(0, len(file), BLOCK_LENGTH)]


def joined_data(file):
    """The data parts joined."""
    return b"".join(block[2:2 + BLOCK_DATA_LENGTH] for block in blocks_of(file))


def check_blocks(file):
    """Gives 2 and 3: blocks ascending, and in a block 2 before 3."""
    for place, block in enumerate(blocks_of(file)):
        if int.from_bytes(block[-4:], "little") != block_check(block):
            raise Refusal(2, place)
        if int.from_bytes(block[:2], "little") != place:
            raise Refusal(3, place)
