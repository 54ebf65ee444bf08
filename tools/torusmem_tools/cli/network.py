"""Writes the text of a network (docs/YOUR-NETWORK.md), judges one, draws it with its verdict, or shows a deadlock.

    tools/network mesh 4x4 > mesh.txt
    tools/network mesh 3x3 --mixed > mixed.txt
    tools/network ring 8 --dateline > ring.txt
    tools/network torus 4x4 > torus.txt
    tools/network tree 7 > tree.txt
    tools/network mesh 4x4 --adaptive > adaptive.txt
    tools/network fat-tree 2x3 > fat.txt
    tools/network table channels.csv > table.txt
    tools/network from-booksim anynet_file > anynet.txt
    tools/network from-garnet Mesh_XY.py --set num_cpus=16 --set mesh_rows=4 > garnet.txt
    tools/network mesh 4x4 --adaptive --classes 3 > coherent.txt
    tools/network walk mixed.txt --explain
    tools/network ring 4 --svg > ring.svg
    tools/network walk mixed.txt --svg > mixed.svg
    tools/network run mixed.txt --depth 2 > run.txt
    tools/network replay mixed.txt run.txt --depth 2
    tools/network traffic mesh.txt --packets 200 --rate 0.1 --length 4 > traffic.txt
    tools/network simulate mesh.txt traffic.txt --depth 4

  mesh WxH     a router at each place; packets go along the rows first, then along the columns. `--mixed`: to
               every other router (by the sum of its digits) along the columns first
               Routers that choose: `--adaptive` (any way that brings a packet nearer, on a first channel of each link;
               the escapes, on a second, along the rows first), `--west-first`, `--north-last`, `--negative-first`,
               `--odd-even` (by these turns, on one)
  ring N       one way round. `--dateline`: two channels on each link, the second from the dateline on
  torus R0xR1  the torus of `torusmem channels`, its channels in that order, with both classes and replies. `--adaptive`:
               three channels on each link, of which the first takes any way that brings a packet nearer. `--plain`: one
               class without replies, on one channel of each link, along the dimensions in order; with `--dateline` on two
  tree N       a binary tree: up to the common ancestor, then down
  hypercube N  routers with N binary digits: along the dimensions in order. `--adaptive`: along any on a first channel of each
               link; the escapes, on a second, in order
  hyperx S0xS1 routers that differ in one digit have a link: as in a hypercube
  fat-tree KxL L levels of routers with K links up and down: up by any link to a common ancestor, then down
  dragonfly A  groups of A routers, each with one link to another group: straight there, or by way of any group. AxPxH: P
               nodes and H such links at each router (8x4x4 has 1,056 nodes). `--minimal`: straight there alone
  up-down FILE the topology of an `anynet` file: up towards a root by any link, then down
  from-table   routing tables, as CSV: a row `router,destination,next,virtual` for each choice, and maybe the columns `escape`
               (empty or `escape`: the channel is an escape, whatever its other rows say, which standard error tells), `from` and `in`: the row is of packets that came from this
               router (its own: of its sender), and by this virtual channel; empty: of all. The first line names the
               columns. Routers have numbers or names
  table FILE   CSV with the header `line`: each row is a line of the text, its words as columns
  from-booksim the topology of BookSim's `anynet`: `router 0 node 0 router 1 ..`; shortest paths by the number
               of links, the router of the lowest number first
  from-garnet  a topology description of gem5's Garnet (a class with `makeTopology(options, network, IntLink, ExtLink,
               Router)`): the file runs as a Python program, with stand-ins for gem5's classes, so give none that you
               don't trust. Routers choose as its table routing does: of the links on a path of least weight any of the
               least weight of its own; `--ordered`: always the first, as of ordered virtual networks. `--set NAME=VALUE`
               sets an option: num_cpus and num_dirs (16), mesh_rows (4), num_l2caches, num_dmas (0), and what the file asks
  walk FILE    judges a text by a plain walk over it, and prints the verdict's kind. Of a text with several choices, or
               with escapes, it prints the verdict of `torusmem network` but for the numbers, and maybe another cycle. The
               status is 0 for `rising`, and where the text says `length 1` and such packets never deadlock, else 1, as there;
               a text that is refused there for anything else is refused here, too. `--explain`: of a
               cycle which channels are full in the end, of which packets, and which channel these wait for; where routers
               choose, over which channels packets can go on ahead of that, and of `rising` over how many a packet goes at most.
               `--find-escapes`: prints lines `escape` with which the text, without its own, is `rising`; where none are found,
               that, with status 1. --tries says how many sets of escapes it looks at, 2,000 if not given.
               `--states N`: looks at the states of packets of one flit, N at most, at --depth; prints the run to a dead state,
               behind a line `# locks up after N moves`, or that there is none in all of them, or among the first N
  run FILE     a run that deadlocks: from the empty network on, packets of one flit. A line a move:
               `send FROM TO LENGTH`, `more X` (the next flit of a sender's packet), `take X` (into the latch behind
               channel X), `put X` (from that latch on; where routers choose `put X Y`, into channel Y), `accept X`, `credit X`
  replay FILE RUN  replays such moves, and prints `locked` if flits stand and nothing can go, `empty` if there is
               no flit, else each move that may still happen without a new packet. The first line that may not
               happen is refused. A receiver takes a flit only if each channel on which it answers has a credit

  traffic FILE  draws a traffic text for `simulate`: each sender asks for a packet with the probability --rate a round, until
               there are --packets of --length flits, to a receiver that the network joins with it. --seed draws another.
               --pattern: uniform (each such receiver as often), transpose, bit-complement, neighbour, tornado (as
               `tools/sweep` has them, by the digits that --digits gives senders and receivers in the order of their
               channels), bit-reverse, shuffle (by the bits of their places in this order, from 0 on), or hot-spot (a
               quarter to the first receiver, or as --hot says, the others uniform). In place of a pattern --to names
               the receiver of each sender, or --matrix a table with the share of each. Where the network has no
               such pair, the sender asks for nothing. --length 1:0.8,5:0.2 mixes lengths; with --burst B a sender
               asks in each round of a burst, of B rounds on average, and between two bursts not at all.
               --from-csv FILE: packets one by one, a row `round,source,destination,length,class` each; places are
               numbers from 0 on or the names of routers, and classes are numbered by their senders' channels
  simulate FILE TRAFFIC  sends packets through a network, in clocked rounds: what may happen when a round begins is attempted
               once, so that a flit goes one stage a round. Of the heads that ask for a channel one is, and the inputs go round; with
               `--arbiter turn` all are, with `--arbiter oldest` that of the packet that could be begun first. Where routers choose, a
               head asks for one of its choices that are free, an escape where no other is; of several for the first by number behind
               the one that it took last, going round. A line of the traffic is `at ROUND send FROM TO LENGTH`. Each sender begins
               its packets in this order, none before its round. Prints for each packet the rounds in which it is begun and
               delivered, and its latency; for each channel how many flits left it, and for how many rounds one waited behind it in
               vain; and last `empty after round N` where all is delivered, or `locked after round N`; with --explain then which
               packets wait for which. Crates/network_rounds states the rounds. What `torusmem simulate` doesn't know is simulated by
               the plain model alone, and the report begins with a line `#` that says so: routers that choose, `oldest`, and these.
               --router-delay, --link-delay: so many rounds more in each router, and on each hop and for its credit.
               --replies L: each receiver answers a packet, from the next round on, on each channel of its `reply` lines, to the
               sender's place, with L flits, or so many for each class of answers (1,5); its line ends `answers N`, the number of
               the packet from 0. --outstanding K: a sender begins no packet while K of its own aren't delivered and answered

What `//` begins in an `anynet` file is a comment. `--svg` draws routers as boxes and channels as arrows; the text of
the network may name the routers and their places. Where it doesn't, the routers are found where channels meet, and
drawn where `dot` of Graphviz puts them, if there is such a command, else in a circle. A channel of a cycle is thick and
red; the legend says which packets hold it, and what they wait for. A dotted channel is no escape. The picture's letters are those of a paper whose
column is 252 points wide. A picture has at most 4,096 channels.

`--classes N` gives a network N message classes: each receiver answers a message on each later class, as in protocols of
cache coherence (request, forward, response: 3). Each class has channels of its own; with `--shared` all go over the same
hops, and only the ends are apart.

`--vcs N` puts N virtual channels in place of each hop, of which routers take any.

`--names` writes lines with names, too, which change no verdict: `router R NAME X Y`, and `link CHANNEL FROM TO VIRTUAL`
(the routers; of an injection or ejection channel both are the same). A line `name CHANNEL WORDS` is read, too.

Nothing that this tool finds is proved. `--verdict FILE` takes the verdict, and of a cycle the channels to fill, from
what `torusmem network` printed.
"""
from __future__ import annotations

from argparse import Namespace
from typing import Optional

from torusmem_tools import command
from torusmem_tools.command import Refusal
from torusmem_tools.draw import paper
from torusmem_tools.draw.network_picture import picture
from torusmem_tools.draw.router_ends import plan_of
from torusmem_tools.model import router_rules, traffic_draw
from torusmem_tools.model.adaptive_verdict import sentences, walked_verdict
from torusmem_tools.model.dead_fillings import DeadSets
from torusmem_tools.model.deadlock import run_of
from torusmem_tools.model.escape_search import TRIES, escapes_said
from torusmem_tools.model.flit_states import states_said
from torusmem_tools.model.network import Network, channel_dependencies, parse_network
from torusmem_tools.model.network_verdict import Verdict, explain, verdict_of, verdict_read
from torusmem_tools.model.network_words import network_of, text_of
from torusmem_tools.model.packet_waits import simulated
from torusmem_tools.model.turn_models import TURNS
from torusmem_tools.model.wormhole import line_of, replay_moves
from torusmem_tools.texts.network_rows import table

TOOL = "network"
# How many channels a picture has at most.
MOST_DRAWN = 4096


def verdict(net: Network, path: str) -> Verdict:
    """The verdict of a text that `torusmem network` printed, or that of the walk."""
    return verdict_read(net, text_of(path), path) if path else verdict_of(net)


def put_or_leave(said: str, is_good: bool) -> str:
    """What is said, with status 0. Where that isn't good, this prints it itself, and ends with status 1."""
    if is_good:
        return said
    command.put(TOOL, said)
    command.leave(TOOL, 1)


def walk(net: Network, path: str, is_explained: bool) -> str:
    """The verdict's kind, or all of it. The status is 0 where it is `rising`."""
    if net.is_adaptive():
        return walk_adaptive(net, path, is_explained)
    found = verdict(net, path) if path or is_explained else Verdict(channel_dependencies(net)[0], "")
    return put_or_leave(explain(net, found) if is_explained else f"{found.kind}\n", found.kind == "rising")


def walk_adaptive(net: Network, path: str, is_explained: bool) -> str:
    """The verdict on a network whose routers choose. The status is 0 where it is `rising`."""
    found = verdict(net, path).chosen if path else None
    found = found or walked_verdict(net)
    return put_or_leave(sentences(net, found) if is_explained else found.text(), found.is_free())


def deadlock_run(net: Network, path: str, depth: int) -> str:
    """The run of a network that deadlocks."""
    found = verdict(net, path)
    if found.chosen:
        fills = found.chosen.fills
        if not fills:
            raise Refusal(f"the verdict is `{found.kind}`: no channels are known that fill up until nothing can go")
        return "\n".join(map(line_of, DeadSets(net).moves(fills, depth))) + "\n"
    if found.kind != "cycle":
        raise Refusal(f"the verdict is `{found.kind}`: there is no cycle that deadlocks")
    return "\n".join(run_of(net, found.fills, depth)) + "\n"


def draw_network(net: Network, path: str, on: Optional[paper.Paper]) -> str:
    """The picture of a network. What its links and its choices say of a router must be the same."""
    if len(net.kinds) > MOST_DRAWN:
        raise Refusal(f"a picture has at most {MOST_DRAWN} channels, and the network has {len(net.kinds)}")
    made = picture(net, verdict(net, path), on, TOOL)
    apart = plan_of(net).apart
    if apart:
        command.say(TOOL, f"{apart} choice{'s go' if apart > 1 else ' goes'} between channels whose `link` lines don't meet")
    return made


GENERATORS = ("mesh", "ring", "torus", "tree", "hypercube", "hyperx", "fat-tree", "dragonfly", "up-down", "from-table", "from-booksim", "from-garnet")
# Of which words each option is of use.
USES = {**{it: ("traffic",) for it in (*traffic_draw.DRAWN, "length", "from_csv")}, "mixed": ("mesh",), "adaptive": ("mesh", "torus", "hypercube", "hyperx"), **{it.replace("-", "_"): ("mesh",) for it in TURNS},
        "dateline": ("ring", "torus"), "plain": ("torus",), "minimal": ("dragonfly",), "vcs": GENERATORS,
        "ordered": ("from-garnet",), "set": ("from-garnet",), "classes": GENERATORS, "shared": GENERATORS,
        "svg": (*GENERATORS, "walk"), "names": GENERATORS, "explain": ("walk", "simulate"), "find_escapes": ("walk",), "tries": ("walk",), "states": ("walk",),
        **{it: ("simulate",) for it in router_rules.OPTIONS},
        "verdict": (*GENERATORS, "walk", "run"), "depth": ("walk", "run", "replay", "simulate"), "arbiter": ("simulate",), "moves": ("replay", "simulate")}


def asked() -> Namespace:
    """The words of the command line."""
    words = command.parser(TOOL, __doc__ or "")
    words.add_argument("what", choices=[*GENERATORS, "table", "walk", "run", "replay", "traffic", "simulate"])
    words.add_argument("which", metavar="SIZE|FILE")
    words.add_argument("moves", metavar="RUN|TRAFFIC", nargs="?", help="of replay: the moves; of simulate: the packets")
    words.add_argument("--mixed", action="store_true", help="of a mesh: to some routers the columns first")
    words.add_argument("--adaptive", action="store_true", help="of a mesh, torus, hypercube or hyperx: any way that brings packets nearer")
    for name in TURNS:
        words.add_argument(f"--{name}", action="store_true", help=f"of a mesh: any way, by the {name} turns")
    words.add_argument("--plain", action="store_true", help="of a torus: one class of packets, without replies")
    words.add_argument("--minimal", action="store_true", help="of a dragonfly: straight to the group alone")
    words.add_argument("--dateline", action="store_true", help="of a ring, or of torus --plain: two channels on each link")
    words.add_argument("--vcs", type=command.whole(2, 16), metavar="N", help="so many virtual channels for each hop, 2 to 16, of which routers take any")
    words.add_argument("--ordered", action="store_true", help="of from-garnet: the first of the links that it may take")
    words.add_argument("--set", action="append", metavar="NAME=VALUE", help="of from-garnet: an option of the description")
    words.add_argument("--classes", type=command.whole(2, 16), metavar="N", help="so many message classes, 2 to 16")
    words.add_argument("--shared", action="store_true", help="of --classes: all on the same hops")
    words.add_argument("--names", action="store_true", help="names of routers and links, too")
    words.add_argument("--svg", action="store_true", help="draw it")
    paper.add_word(words, "of --svg: ")
    words.add_argument("--explain", action="store_true", help="of walk, and of simulate where it is locked: who holds what, and waits for what")
    words.add_argument("--find-escapes", action="store_true", help="of walk: lines `escape` with which it is rising")
    words.add_argument("--tries", type=command.whole(1, 10**6), metavar="N", help=f"of --find-escapes: how many sets of escapes at most, {TRIES} by default")
    words.add_argument("--states", type=command.whole(1, 10**7), metavar="N", help="of walk: look at the states of packets of one flit, N at most")
    words.add_argument("--verdict", metavar="FILE", help="what `torusmem network` printed of it")
    words.add_argument("--depth", type=command.whole(1, 8), help="how many flits a channel holds: 1, or up to 8")
    router_rules.add_words(words, "of simulate: ")
    traffic_draw.add_words(words)
    given = words.parse_args()
    for option, of in USES.items():
        if getattr(given, option) is not None and getattr(given, option) is not False and given.what not in of:
            name = "a second file" if option == "moves" else f"--{option.replace('_', '-')}"
            raise command.WrongWords(f"{name} is of no use with {given.what} (--help says more)")
    check_together(given)
    return given


def check_together(given: Namespace) -> None:
    """Refuses words that mean nothing together."""
    if given.what in ("replay", "simulate") and not given.moves:
        behind = "the moves" if given.what == "replay" else "the packets"
        raise command.WrongWords(f"{given.what} takes the network and {behind} (--help says more)")
    if given.svg and (given.explain or given.names):
        raise command.WrongWords(f"--{'explain' if given.explain else 'names'} is of no use with --svg (--help says more)")
    if given.width and not given.svg:
        raise command.WrongWords("--width is of use with --svg alone (--help says more)")
    if given.find_escapes and (given.svg or given.explain or given.verdict):
        raise command.WrongWords(f"--{'svg' if given.svg else 'explain' if given.explain else 'verdict'} is of no use with --find-escapes (--help says more)")
    if given.tries and not given.find_escapes:
        raise command.WrongWords("--tries is of use with --find-escapes alone (--help says more)")
    if given.states and (given.svg or given.explain or given.verdict or given.find_escapes):
        other = "svg" if given.svg else "explain" if given.explain else "verdict" if given.verdict else "find-escapes"
        raise command.WrongWords(f"--{other} is of no use with --states (--help says more)")
    if given.what == "walk" and given.depth and not given.states:
        raise command.WrongWords("--depth is of use with walk where --states is given (--help says more)")
    if given.shared and not given.classes:
        raise command.WrongWords("--shared is of use with --classes alone (--help says more)")
    if given.verdict and given.what in GENERATORS and not given.svg:
        raise command.WrongWords("--verdict is of use with --svg, walk and run alone (--help says more)")
    ways = ["mixed", "adaptive", *TURNS]
    if sum(getattr(given, it.replace("-", "_")) for it in ways) > 1:
        raise command.WrongWords(f"{', '.join(f'--{it}' for it in ways[:-1])} and --{ways[-1]} exclude one another (--help says more)")
    if given.plain and given.adaptive:
        raise command.WrongWords("--plain is of no use with --adaptive (--help says more)")
    if given.dateline and given.what == "torus" and not given.plain:
        raise command.WrongWords("--dateline is of use with ring and torus --plain alone (--help says more)")
    command.refuse_twice(given.which, given.moves, given.verdict)


def work() -> str:
    """The text or the picture that the command line asks for."""
    given = asked()
    if given.what == "table":
        return table(text_of(given.which), given.which)
    if given.what in GENERATORS:
        net = network_of(given)
        if given.what == "from-booksim" and channel_dependencies(net)[0] == "cycle":
            command.say(TOOL, "shortest paths have a cycle here")
        return draw_network(net, given.verdict, given.width) if given.svg else net.text(given.names)
    net = parse_network(text_of(given.which), given.which)
    if given.what == "traffic":
        return traffic_draw.traffic_text(net, given)
    if given.what in ("replay", "simulate"):
        words = net, given.depth or 1, text_of(given.moves), given.moves
        shown = replay_moves(*words) if given.what == "replay" else simulated(*words, router_rules.rules_of(given, given.arbiter), given.explain)
        return "\n".join(shown) + "\n"
    if given.states:
        return put_or_leave(*states_said(net, given.states, given.depth or 1))
    if given.find_escapes:
        return put_or_leave(*escapes_said(net, given.tries or TRIES))
    if given.what == "run":
        return deadlock_run(net, given.verdict, given.depth or 1)
    return draw_network(net, given.verdict, given.width) if given.svg else walk(net, given.verdict, given.explain)
