"""The network that the words of tools/network describe."""
from __future__ import annotations

from argparse import Namespace
from typing import Dict, List

from torusmem_tools import command
from torusmem_tools.model import adaptive_networks, cubes, deterministic_networks
from torusmem_tools.model.message_classes import with_classes
from torusmem_tools.model.network import Network, number_of
from torusmem_tools.model.turn_models import TURNS, turn_model_mesh
from torusmem_tools.model.virtual_channels import with_virtual_channels
from torusmem_tools.texts.anynet import anynet, booksim
from torusmem_tools.texts.garnet import garnet
from torusmem_tools.texts.routing_table import from_table


def sizes(word: str, most: int) -> List[int]:
    """Numbers joined by `x`."""
    found = word.split("x")
    if not 1 <= len(found) <= most or not all(1 <= number_of(it) <= 128 for it in found):
        wanted = ("a number", "one or two numbers", "one to three numbers")[most - 1] + " from 1 to 128"
        raise command.WrongWords(f"'{word}' is no size: {wanted}{', as 4x2' * (most > 1)} (--help says more)")
    return [int(it) for it in found]


def text_of(path: str) -> str:
    """The text of a file."""
    return command.contents(path, 1 << 30).decode("utf-8", "replace")


def options_of(words: List[str]) -> Dict[str, object]:
    """The options that `--set` gives: numbers, or words."""
    found: Dict[str, object] = {}
    for word in words:
        name, sign, value = word.partition("=")
        if not sign or not name.isidentifier():
            raise command.WrongWords(f"--set takes NAME=VALUE, and not '{word}' (--help says more)")
        found[name] = int(value) if number_of(value) >= 0 else value
    return found


def network_of(given: Namespace) -> Network:
    """The network that the command line describes, with its virtual channels and message classes."""
    net = network_of_one_class(given)
    if given.vcs:
        net = with_virtual_channels(net, given.vcs)
    return with_classes(net, given.classes, given.shared) if given.classes else net


def network_of_one_class(given: Namespace) -> Network:
    """The network that the command line describes, with one class."""
    if given.what == "from-garnet":
        return garnet(text_of(given.which), given.which, options_of(given.set or []), given.ordered)
    if given.what == "from-booksim":
        return booksim(text_of(given.which), given.which)
    if given.what == "up-down":
        return adaptive_networks.up_down(*anynet(text_of(given.which), given.which))
    if given.what == "from-table":
        return from_table(text_of(given.which), given.which, lambda it: command.say("network", it))
    return of_size(given)


def of_size(given: Namespace) -> Network:
    """The network of a size that the command line gives."""
    most = {"mesh": 2, "fat-tree": 2, "torus": 3, "hyperx": 3, "dragonfly": 3}.get(given.what, 1)
    size = sizes(given.which, most)
    if given.what == "mesh":
        return mesh(given, *(*size, *size)[:2])
    if given.what == "torus":
        return torus(given, size)
    if given.what == "fat-tree":
        return adaptive_networks.fat_tree(*(*size, 2)[:2])
    if given.what == "hyperx":
        return cubes.hyperx(size, given.adaptive)
    if given.what == "hypercube":
        return cubes.hypercube(size[0], given.adaptive)
    if given.what == "dragonfly":
        routers, nodes, links = [*size, 1, 1][:3]
        return adaptive_networks.dragonfly(routers, nodes, links, given.minimal)
    return deterministic_networks.ring(size[0], given.dateline) if given.what == "ring" else deterministic_networks.tree(size[0])


def mesh(given: Namespace, width: int, height: int) -> Network:
    """A mesh by its option."""
    if given.adaptive:
        return adaptive_networks.adaptive_mesh(width, height)
    for name, may in TURNS.items():
        if getattr(given, name.replace("-", "_")):
            return turn_model_mesh(width, height, may)
    return deterministic_networks.mesh(width, height, given.mixed)


def torus(given: Namespace, radices: List[int]) -> Network:
    """A torus by its option."""
    if given.adaptive:
        return adaptive_networks.adaptive_torus(radices)
    return cubes.plain_torus(radices, given.dateline) if given.plain else deterministic_networks.torus(radices)
