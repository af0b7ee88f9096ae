"""Names and numbers that collide in a table whose hash has a fixed seed, which the toolchain's maps have by default.

The hash takes a text in blocks of 16 bytes, each of which is two words. The words x and y take the state s to
`fold(x ^ s, y ^ MULTIPLIER)`. That is a product, so the factors may change places, and they do for the words y ^ d and
x ^ d, where d is s ^ MULTIPLIER. If no byte of d is above 127, there are two such blocks of letters and digits; and of
256 that are tried one leads to a state of which this holds again. So of several blocks in a row each can be put in two
ways, and all names that are made like this have one hash.

Hardly two numbers of 32 bits have one hash. But a search in the table goes on from a full group to the next one where
the group is marked for the hash, by one of 32 marks. Of 128 numbers that are tried one begins in the first quarter of
the groups and has a given mark. Such numbers fill one run of groups, and each search goes through a part of it.
"""
import itertools
import random

MASK = (1 << 64) - 1
MULTIPLIER = 0x9E3779B97F4A7C15
SEED = 0x243F6A8885A308D3
ABOVE = 0x8080808080808080
BLOCK = 16
GROUP_LOAD = 9
ALPHABET = b"0123456789ABCDEFGHIJKLMNOPQRSTUVWXYZabcdefghijklmnopqrstuvwxyz"
# for each byte, the characters that are still of the alphabet when they are xored with it
EXCHANGED = [bytes(c for c in ALPHABET if c ^ byte in ALPHABET) for byte in range(128)]


def fold(a, b):
    product = a * b
    return (product ^ product >> 64) & MASK


def after_number(state, number, size):
    """The state after a number of 4 or 8 bytes."""
    word = number | number << 32 if size == 4 else number
    return fold(state ^ word, MULTIPLIER ^ 2 * size)


def after_blocks(state, text):
    """The state after these blocks of a text. The text's length has been added to it before."""
    for at in range(0, len(text), BLOCK):
        first, second = (int.from_bytes(text[each : each + 8], "little") for each in (at, at + 8))
        state = fold(first ^ state, second ^ MULTIPLIER)
    return state


def difference(state):
    """What the words of two blocks differ by that leave the same state; None where they can't both be letters."""
    bits = state ^ MULTIPLIER
    return None if bits & ABOVE else bits.to_bytes(8, "little") * 2


def two_blocks(chance, state, is_last):
    """Two blocks that leave the same state, and that. Unless they are the last ones, two blocks can follow."""
    change = difference(state)
    while True:
        block = bytes(chance.choice(EXCHANGED[byte]) for byte in change)
        other = bytes(c ^ byte for c, byte in zip(block[8:] + block[:8], change))
        after = after_blocks(state, block)
        if block != other and (is_last or difference(after)):
            return (block, other), after


def names(count, state=SEED, before="", after=""):
    """So many names that collide as parts of texts, each between these two, and plain ones: the same names, but for the
    first character, so that they are as long and as alike, and don't collide. The hash has this state before a text."""
    chance = random.Random(count)
    pairs = max(count - 1, 1).bit_length()
    head, tail = before.encode(), b"-" * BLOCK * bool(after)
    filler = BLOCK + -len(head) % BLOCK
    state = state + len(head) + filler + BLOCK * pairs + len(tail) + len(after) & MASK
    first = b""
    while not first or not difference(after_blocks(state, head + first)):
        first = bytes(chance.choices(ALPHABET, k=filler))
    state = after_blocks(state, head + first)
    blocks = []
    for left in reversed(range(pairs)):
        two, state = two_blocks(chance, state, left == 0)
        blocks.append(two)
    rests = [b"".join(rest) + tail for rest in itertools.islice(itertools.product(*blocks), count)]
    other = bytes([ALPHABET[ALPHABET.index(first[0]) - 1]]) + first[1:]
    return [[(start + rest).decode() for rest in rests] for start in (first, other)]


def numbers(count):
    """So many numbers below 2^32 that make a chain in a table of so many keys, and plain ones: each the next one."""
    groups = 1
    while GROUP_LOAD * groups < count:
        groups *= 2

    def is_in_chain(number):
        state = after_number(SEED, number, 4)
        word = state ^ state >> 32
        return word & groups - 1 < max(groups // 4, 1) and word >> 24 & 31 == 7

    chosen = list(itertools.islice(filter(is_in_chain, itertools.count()), count))
    return chosen, [number + 1 for number in chosen]
