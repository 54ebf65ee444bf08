"""Names and places of the routers of a network, for its text and its picture."""
from __future__ import annotations

import math
from typing import List

from torusmem_tools.model.network import Network, Place, Router
from torusmem_tools.model.torus import digits


def round_about(k: int, count: int) -> Place:
    """The place of one of so many routers on a circle, the first of which is at its top."""
    return round(500 + 500 * math.sin(2 * math.pi * k / count)), round(500 - 500 * math.cos(2 * math.pi * k / count))


def grid(net: Network, width: int, height: int) -> None:
    """The names and places of a mesh's routers."""
    net.routers = {r: Router(f"{r % width},{r // width}", (r % width, r // width)) for r in range(width * height)}


def torus_router(tile: int, radices: List[int]) -> Router:
    """The name of a tile's router, and its place where there are one or two dimensions."""
    place = digits(tile, radices)
    if len(place) > 2:
        return Router(",".join(map(str, place)))
    return Router(",".join(map(str, place)), round_about(tile, radices[0]) if len(place) == 1 else (place[0], place[1]))
