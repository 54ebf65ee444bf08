"""What memory models allow of a litmus test, by all runs of their abstract machines (model/memory_models.py)."""
from __future__ import annotations

import itertools
import math
from typing import Callable, Dict, Iterator, List, Optional, Tuple

from torusmem_tools.model.memory_models import MODELS, Log, verdicts
from torusmem_tools.model.operations import Operation

# The replies of operations, by processor and number there, and the words in the end.
Ended = Tuple[Dict[Tuple[int, int], int], List[int]]


def orders(operations: List[Operation], word: int) -> Iterator[List[int]]:
    """The orders of a word's writes that keep those of each processor in program order."""
    writes = [x for x, it in enumerate(operations) if it.is_write() and it.word == word]
    for order in itertools.permutations(writes):
        numbers: Dict[int, int] = {}
        for x in order:
            it = operations[x]
            if numbers.get(it.processor, -1) > it.number:
                break
            numbers[it.processor] = it.number
        else:
            yield list(order)


def most_logs(operations: List[Operation], words: int) -> int:
    """How many logs the operations have, at most."""
    writes = [sum(it.is_write() and it.word == word for it in operations) for word in range(words)]
    of_loads = math.prod(writes[it.word] + 1 for it in operations if it.kind == "load")
    return of_loads * math.prod(map(math.factorial, writes))


def logs(operations: List[Operation], openings: List[int]) -> Iterator[Log]:
    """Each log of the operations: an order of each word's writes, and a source for each load."""
    loads = [x for x, it in enumerate(operations) if it.kind == "load"]
    for written in itertools.product(*(list(orders(operations, word)) for word in range(len(openings)))):
        choices: List[List[Optional[int]]] = [[None, *written[operations[x].word]] for x in loads]
        for sources in itertools.product(*choices):
            log = Log(operations, openings)
            log.writes = list(written)
            log.source = dict(zip(loads, sources))
            yield log


def ended(log: Log) -> Ended:
    """The replies of a log, and the words in the end."""
    finds, _ = log.replies()
    replies = {(log.operations[x].processor, log.operations[x].number): found for x, found in finds.items()}
    words = [log.operations[writes[-1]].left(finds[writes[-1]]) if writes else opening for writes, opening in zip(log.writes, log.openings)]
    return replies, words


def allowed(operations: List[Operation], openings: List[int], is_so: Callable[[Ended], bool]) -> Dict[str, bool]:
    """Which models allow an end of which this is so."""
    found = dict.fromkeys(MODELS, False)
    for log in logs(operations, openings):
        if not all(found.values()) and is_so(ended(log)):
            for model, obeys in verdicts(log).items():
                found[model] |= obeys
    return found
