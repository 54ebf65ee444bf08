"""Stand-ins for the classes and modules of gem5 that topology descriptions use."""
from __future__ import annotations

import contextlib
import sys
from types import ModuleType
from typing import Dict, Iterator, List, Tuple

# What `makeTopology` finds among its options, if `--set` says nothing else. Of each kind of controller there are so many.
OPTIONS: Dict[str, object] = {"num_cpus": 16, "num_dirs": 16, "num_l2caches": 0, "num_dmas": 0, "mesh_rows": 4, "link_latency": 1, "router_latency": 1,
                              "network": "garnet", "mem_size": "512MB"}
CONTROLLERS = {"L1Cache_Controller": "num_cpus", "L2Cache_Controller": "num_l2caches", "Directory_Controller": "num_dirs", "DMA_Controller": "num_dmas"}
# Words of a link or a router that change no route.
IDLE = {"latency", "bandwidth_factor", "width", "clk_domain", "vt", "src_cdc", "dst_cdc", "int_cdc", "ext_cdc", "src_serdes", "dst_serdes",
        "int_serdes", "ext_serdes", "vcs_per_vnet", "virt_nets"}


class Missing(Exception):
    """A file asks for what the stand-ins don't have: what that is."""


class Part:
    """A stand-in for a class of gem5 with these words; all but those that must be given may be left out."""

    NEEDED: Tuple[str, ...] = ()
    MORE: Dict[str, object] = {}

    def __init__(self, **words: object) -> None:
        name = type(self).__name__
        for word in self.NEEDED:
            if word not in words:
                raise Missing(f"{name} without {word}")
        for word in words:
            if word not in (*self.NEEDED, *self.MORE) and word not in IDLE:
                raise Missing(f"the stand-in for {name} knows no {word}")
        self.__dict__.update({**self.MORE, **words})


class GarnetRouter(Part):
    """A router, by its number."""

    NEEDED = ("router_id",)


class IntLink(Part):
    """A link from a router to a router."""

    NEEDED = ("src_node", "dst_node")
    MORE = {"link_id": None, "src_outport": "", "dst_inport": "", "weight": 1}


class ExtLink(Part):
    """The link between a controller and a router, both ways."""

    NEEDED = ("ext_node", "int_node")
    MORE = {"link_id": None, "weight": 1}


class Controller:
    """What sends and receives."""

    def __init__(self, kind: str, version: int) -> None:
        self.type, self.version = kind, version


class Options:
    """What gem5's command line says."""

    def __init__(self, given: Dict[str, object]) -> None:
        self.__dict__.update({**OPTIONS, **given})
        self.__dict__["_unasked"] = set(given)

    def __getattribute__(self, name: str) -> object:
        object.__getattribute__(self, "__dict__").get("_unasked", set()).discard(name)
        return object.__getattribute__(self, name)

    def __getattr__(self, name: str) -> object:
        raise Missing(f"the option {name} isn't known: give --set {name}=VALUE")

    def unasked(self) -> List[str]:
        """The options that are given, and that nobody has asked for."""
        return sorted(self.__dict__["_unasked"])


class GarnetNetwork:
    """What `makeTopology` fills."""

    def __init__(self) -> None:
        self.routers: List[GarnetRouter] = []
        self.int_links: List[IntLink] = []
        self.ext_links: List[ExtLink] = []

    def __getattr__(self, name: str) -> object:
        raise Missing(f"the stand-in for the network has no {name}")


class BaseTopology:
    """The base of gem5's topologies."""

    description = "BaseTopology"

    def __init__(self) -> None:
        pass

    def registerTopology(self, options: object) -> None:
        """What gem5 calls for its file systems."""


class SimpleTopology(BaseTopology):
    """The base of those that take all controllers at once."""

    def __init__(self, controllers: List[Controller]) -> None:
        self.nodes = controllers

    def addController(self, controller: Controller) -> None:
        self.nodes.append(controller)

    def __len__(self) -> int:
        return len(self.nodes)


def fatal(why: str, *words: object) -> None:
    """As gem5's."""
    raise Missing(f"fatal: {why % words if words else why}")


class StandIn(ModuleType):
    """A module of gem5's."""

    def __init__(self, name: str, **has: object) -> None:
        super().__init__(name)
        self.__dict__.update(has)
        self.__all__ = list(has)

    def __getattr__(self, name: str) -> object:
        if name.startswith("__"):
            raise AttributeError(name)
        raise Missing(f"the stand-in for {self.__name__} has no {name}")


@contextlib.contextmanager
def standing(folder: str) -> Iterator[None]:
    """With gem5's modules among those that are loaded; others of `topologies` are read from the folder."""
    links = {"BasicIntLink": IntLink, "BasicExtLink": ExtLink, "BasicRouter": GarnetRouter, "GarnetIntLink": IntLink, "GarnetExtLink": ExtLink,
             "GarnetRouter": GarnetRouter}
    made = [StandIn("m5", fatal=fatal), StandIn("m5.params"), StandIn("m5.objects", **links), StandIn("m5.util", fatal=fatal, panic=fatal, warn=fatal),
            StandIn("m5.defines"), StandIn("common"), StandIn("common.FileSystemConfig"), StandIn("topologies"),
            StandIn("topologies.BaseTopology", BaseTopology=BaseTopology, SimpleTopology=SimpleTopology)]
    before = {it.__name__: sys.modules.get(it.__name__) for it in made}
    for it in made:
        it.__path__ = [folder] if it.__name__ == "topologies" else []
        sys.modules[it.__name__] = it
        above, _, last = it.__name__.rpartition(".")
        if above:
            setattr(sys.modules[above], last, it)
    try:
        with contextlib.redirect_stdout(sys.stderr):
            yield
    finally:
        for name, module in before.items():
            if module is None:
                sys.modules.pop(name, None)
            else:
                sys.modules[name] = module
