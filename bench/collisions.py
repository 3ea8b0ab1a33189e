"""Names that a program's tables can't tell apart, found by the definitions of the digests and hashes in its sources.

A table of names (`indexmap` of the kit) takes a hash of 32 bits; the low bits choose a group of places, and the high byte is
compared before a name is. Names are tried many at a time: a large number has a lane of 128 bits for each of them.
"""
import functools
import itertools
import string
from typing import Callable, Iterator, NamedTuple

FOLD_BEGIN = 0x243F_6A88_85A3_08D3
FOLD_MULTIPLIER = 0x9E37_79B9_7F4A_7C15
NAME_MULTIPLIER = 6_364_136_223_846_793_005
LANE = 16
# How many entries a group of a table has on average at most.
GROUP_LOAD = 9
# The last bytes of the names that are tried together.
TRIED = 3


class Lanes(NamedTuple):
    """Constants for so many lanes: 1, 64 bits and 32 bits in each."""

    ones: int
    low: int
    half: int


@functools.cache
def lanes(count: int) -> Lanes:
    ones = int.from_bytes((1).to_bytes(LANE, "little") * count, "little")
    return Lanes(ones, ones * (2**64 - 1), ones * (2**32 - 1))


def folded_multiply(values: int, multiplier: int, of: Lanes) -> int:
    """The halves of each product of 128 bits, joined by xor."""
    product = values * multiplier
    return (product ^ product >> 64) & of.low


class Digest(NamedTuple):
    """A hash of names of so many letters: what it is after the first of them, what one more makes of it, and how it ends."""

    alphabet: str
    begin: Callable[[str, int], int]
    step: Callable[[int, int, Lanes], int]
    end: Callable[[int, str, Lanes], int]


def pool_name_step(values: int, letters: int, of: Lanes) -> int:
    return folded_multiply(values ^ letters * 0x1_0101, FOLD_MULTIPLIER ^ 2, of)


def pool_name_begin(prefix: str, length: int) -> int:
    begun = folded_multiply(FOLD_BEGIN ^ length, FOLD_MULTIPLIER ^ 16, lanes(1))
    return functools.reduce(lambda value, letter: pool_name_step(value, ord(letter), lanes(1)), prefix, begun)


def attribute_name_end(values: int, prefix: str, of: Lanes) -> int:
    first = int.from_bytes(prefix.encode(), "big") << 32
    return folded_multiply(values + first * of.ones, NAME_MULTIPLIER, of)


# The hash of the names of ads, jobs and users: their length and then each byte is written to the kit's `FoldHasher`.
POOL_NAME = Digest(string.ascii_letters + string.digits + "_-", pool_name_begin, pool_name_step, lambda values, prefix, of: values)
# The hash of the names of attributes (`hashed_name` and `mixed` of `ad_tree`) under the seed 0, which a run has only by a rare
# chance. Small letters stand for themselves; of seven the first four and the last four are one word.
ATTRIBUTE_NAME = Digest(
    string.ascii_lowercase,
    begin=lambda prefix, length: ord(prefix[-1]),
    step=lambda values, letters, of: values * 0x100 + letters,
    end=attribute_name_end,
)


@functools.cache
def letters(alphabet: str, each: int) -> int:
    """Lanes with the first letter of an alphabet, as many as are wanted of each, then with the second, and so on."""
    return int.from_bytes(b"".join(ord(letter).to_bytes(LANE, "little") * each for letter in alphabet), "little")


def hashes(digest: Digest, prefix: str) -> bytes:
    """The hashes of all names with the prefix and `TRIED` letters more, a lane each; the first of these goes round fastest."""
    values = digest.begin(prefix, len(prefix) + TRIED)
    count = 1
    for _ in range(TRIED):
        many = count * len(digest.alphabet)
        values = int.from_bytes(values.to_bytes(count * LANE, "little") * len(digest.alphabet), "little")
        values = digest.step(values, letters(digest.alphabet, count), lanes(many))
        count = many
    of = lanes(count)
    values = digest.end(values, prefix, of)
    return ((values ^ values >> 32) & of.half).to_bytes(count * LANE, "little")


def found(digest: Digest, prefix: str, groups: int) -> Iterator[str]:
    """The names with the prefix that are sought in the first group, under the tag 1, which stands for 0 too."""
    taken = hashes(digest, prefix)
    tags = taken[3::LANE].replace(b"\0", b"\1")
    place = tags.find(1)
    while place >= 0:
        if int.from_bytes(taken[place * LANE : place * LANE + 3], "little") % groups == 0:
            places = (place // len(digest.alphabet) ** k % len(digest.alphabet) for k in range(TRIED))
            yield prefix + "".join(digest.alphabet[k] for k in places)
        place = tags.find(1, place + 1)


@functools.cache
def colliding(digest: Digest, count: int) -> list[str]:
    """So many names that a table of so many looks for in one place."""
    groups = 1
    while groups * GROUP_LOAD < count:
        groups *= 2
    prefixes = map("".join, itertools.product(digest.alphabet[:26], repeat=4))
    return list(itertools.islice(itertools.chain.from_iterable(found(digest, it, groups) for it in prefixes), count))


def of_one_sum(count: int) -> list[str]:
    """Names of one digest in an index, which multiplies by 31 (`digest` of `literal_index`): made of `an` and `c0`."""
    blocks = max(1, (count - 1).bit_length())
    return list(itertools.islice(map("".join, itertools.product(("an", "c0"), repeat=blocks)), count))
