"""A topology description as gem5's Garnet takes it: a mesh with caches at each router, a directory at each corner, and
controllers for DMA at router 0. `tools/network from-garnet --set num_dirs=4` reads it."""
from m5.params import *
from m5.objects import *

from common import FileSystemConfig
from topologies.BaseTopology import SimpleTopology


class MeshDirCorners_XY(SimpleTopology):
    description = "MeshDirCorners_XY"

    def __init__(self, controllers):
        self.nodes = controllers

    def makeTopology(self, options, network, IntLink, ExtLink, Router):
        count, rows = options.num_cpus, options.mesh_rows
        assert rows > 0 and count % rows == 0
        columns = count // rows

        caches = [n for n in self.nodes if n.type in ("L1Cache_Controller", "L2Cache_Controller")]
        directories = [n for n in self.nodes if n.type == "Directory_Controller"]
        dmas = [n for n in self.nodes if n.type == "DMA_Controller"]
        assert len(caches) % count == 0, "caches are dealt out evenly"
        assert len(directories) == 4, "each corner has a directory"

        network.routers = [Router(router_id=r, latency=options.router_latency) for r in range(count)]
        corners = (0, columns - 1, count - columns, count - 1)
        ends = [(n, k % count) for k, n in enumerate(caches)] + list(zip(directories, corners)) + [(n, 0) for n in dmas]
        for node, r in ends:
            network.ext_links.append(ExtLink(link_id=len(network.ext_links), ext_node=node, int_node=network.routers[r]))

        ways = [("East", "West", 1, 1), ("West", "East", -1, 1), ("North", "South", columns, 2), ("South", "North", -columns, 2)]
        for way, back, step, weight in ways:
            for r in range(count):
                s = r + step
                if 0 <= s < count and (weight == 2 or r // columns == s // columns):
                    network.int_links.append(
                        IntLink(
                            link_id=len(ends) + len(network.int_links),
                            src_node=network.routers[r],
                            dst_node=network.routers[s],
                            src_outport=way,
                            dst_inport=back,
                            weight=weight,
                        )
                    )

    def registerTopology(self, options):
        for cpu in range(options.num_cpus):
            FileSystemConfig.register_node([cpu], options.mem_size, cpu)
