"""A topology description as gem5's Garnet takes it: a mesh, the controllers dealt out to its routers in turn. Links along
a row have weight 1 and links along a column weight 2, so packets go along rows first. `tools/network from-garnet` reads it."""
from m5.params import *
from m5.objects import *

from topologies.BaseTopology import SimpleTopology


class Mesh_XY(SimpleTopology):
    description = "Mesh_XY"

    def __init__(self, controllers):
        self.nodes = controllers

    def makeTopology(self, options, network, IntLink, ExtLink, Router):
        count, rows = options.num_cpus, options.mesh_rows
        assert rows > 0 and count % rows == 0
        columns = count // rows

        routers = [Router(router_id=r, latency=options.router_latency) for r in range(count)]
        network.routers = routers
        network.ext_links = [
            ExtLink(link_id=k, ext_node=node, int_node=routers[k % count], latency=options.link_latency)
            for k, node in enumerate(self.nodes)
        ]

        int_links = []

        def link(r, s, way, back, weight):
            int_links.append(
                IntLink(
                    link_id=len(self.nodes) + len(int_links),
                    src_node=routers[r],
                    dst_node=routers[s],
                    src_outport=way,
                    dst_inport=back,
                    latency=options.link_latency,
                    weight=weight,
                )
            )

        for r in range(count):
            if (r + 1) % columns:
                link(r, r + 1, "East", "West", weight=1)
                link(r + 1, r, "West", "East", weight=1)
            if r + columns < count:
                link(r, r + columns, "North", "South", weight=2)
                link(r + columns, r, "South", "North", weight=2)
        network.int_links = int_links
