"""Where packets go by a pattern of traffic: Dally and Towles, Principles and Practices of Interconnection Networks, 2004, chapter
3.2. A place is a number whose digits, dimension 0 first, have the given radices."""
from __future__ import annotations

from typing import List, Sequence

from torusmem_tools import command
from torusmem_tools.model.torus import digits

# The patterns that give each place one other; the first four by its digits, the others by its bits.
BY_DIGITS = ("transpose", "bit-complement", "neighbour", "tornado")
BY_BITS = ("bit-reverse", "shuffle")
# All: of `uniform` and `hot-spot` packets go to several places.
PATTERNS = ("uniform", *BY_DIGITS, *BY_BITS, "hot-spot")


def bits_of(count: int, pattern: str) -> int:
    """How many bits so many places have; refused where they aren't a power of two."""
    if count < 2 or count & (count - 1):
        raise command.Refusal(f"{pattern} needs a number of places that is a power of two, and there are {count}")
    return count.bit_length() - 1


def by_bits(pattern: str, place: int, count: int) -> int:
    """The place of the reversed bits, or of those that are turned by one to the left."""
    bits = bits_of(count, pattern)
    if pattern == "bit-reverse":
        return int(format(place, f"0{bits}b")[::-1], 2)
    return (place << 1 | place >> (bits - 1)) & (count - 1)


def by_digits(pattern: str, place: Sequence[int], radices: Sequence[int]) -> List[int]:
    """The digits of the place to which packets go."""
    if pattern == "neighbour":
        return [(it + 1) % radix for it, radix in zip(place, radices)]
    if pattern == "tornado":
        return [(it + (radix + 1) // 2 - 1) % radix for it, radix in zip(place, radices)]
    if pattern == "bit-complement":
        return [radix - 1 - it for it, radix in zip(place, radices)]
    return [it % radix for it, radix in zip(place[::-1], radices)]


def number_of(place: Sequence[int], radices: Sequence[int]) -> int:
    """The place of these digits."""
    made = 0
    for it, radix in zip(place[::-1], radices[::-1]):
        made = made * radix + it
    return made


def target(pattern: str, place: int, radices: Sequence[int], count: int) -> int:
    """The place, of so many, to which the packets of a place go."""
    if pattern in BY_BITS:
        return by_bits(pattern, place, count)
    return number_of(by_digits(pattern, digits(place, radices), radices), radices)
