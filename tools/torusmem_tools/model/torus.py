"""The torus: its tiles, ports and channels, and the way of a packet over it."""
from __future__ import annotations

from typing import Sequence

from torusmem_tools import command
from torusmem_tools.texts import report


def radices_of(word: str) -> list[int]:
    """The reader of a shape on the command line: the radix of each dimension, as 4x2."""
    radices = [command.whole(2, 8)(it) for it in word.split("x")]
    if len(radices) > 3 or report.product(radices) > report.MOST_TILES:
        raise command.bad_word("there are more than 3 dimensions, or more than 64 tiles")
    return radices


def digits(tile: int, radices: Sequence[int]) -> list[int]:
    """The digits of a tile, its place in each dimension, that of dimension 0 first."""
    found = []
    for radix in radices:
        found.append(tile % radix)
        tile //= radix
    return found


def moved(tile: int, dim: int, by: int, radices: Sequence[int]) -> int:
    """The tile that lies so many hops on in a dimension, round the torus."""
    digit, weight = digits(tile, radices)[dim], report.product(list(radices[:dim]))
    return tile + ((digit + by) % radices[dim] - digit) * weight


class Shape:
    """The torus: its tiles, ports and channels, and the way of a packet."""

    def __init__(self, radices: list[int], datelines: list[int]) -> None:
        self.radices, self.datelines, self.dims = radices, datelines, len(radices)
        self.tiles, self.ports = report.product(radices), 8 * len(radices) + 2
        self.at_tile = self.ports + 2

    def digits(self, tile: int) -> list[int]:
        """The digits of a tile, that of dimension 0 first."""
        return digits(tile, self.radices)

    def next_tile(self, tile: int, dim: int, by: int) -> int:
        """The neighbour of a tile, one hop in plus direction (`by` is 1) or in minus direction (-1)."""
        return moved(tile, dim, by, self.radices)

    def input(self, tile: int, port: int) -> int:
        """The place among all channels of that at an input of a router."""
        back = self.next_tile(tile, port // 8, 1 if port // 4 % 2 else -1) if port < 8 * self.dims else tile
        return back * self.at_tile + port

    def output(self, tile: int, port: int) -> int:
        """The place among all channels of that at an output of a router."""
        return tile * self.at_tile + port + (0 if port < 8 * self.dims else 2)

    def way(self, tile: int, port: int, to: int, is_reply: bool) -> int:
        """The output for a packet to a tile that came by an input of a router."""
        for dim, (here, there) in enumerate(zip(self.digits(tile), self.digits(to))):
            radix, line = self.radices[dim], self.datelines[dim]
            forth = (there - here) % radix
            if forth:
                is_minus = forth > radix - forth
                is_crossed = here == ((line + 1) % radix if is_minus else line)
                was_crossed = port < 8 * self.dims and port // 8 == dim and port % 2 == 1
                return 8 * dim + 4 * is_minus + 2 * is_reply + (is_crossed or was_crossed)
        return 8 * self.dims + is_reply

    def hops(self, source: int, to: int) -> int:
        """How many hops a packet makes from a tile to a tile."""
        far = ((b - a) % radix for a, b, radix in zip(self.digits(source), self.digits(to), self.radices))
        return sum(min(it, radix - it) for it, radix in zip(far, self.radices))
