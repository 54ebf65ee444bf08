"""What the columns and the operations of a table are called elsewhere: for one that doesn't name them as they are wanted."""
from __future__ import annotations

import difflib
from typing import Collection, Dict, List, Sequence

ELSEWHERE: Dict[str, Sequence[str]] = {
    "processor": ("core", "thread", "proc", "cpu", "hart", "client", "process", "worker", "tid", "pid", "source", "id"),
    "operation": ("op", "kind", "type", "cmd", "command", "request", "f", "access"),
    "address": ("addr", "adr", "key", "register", "location", "loc", "object"),
    "values": ("value", "data", "write", "written", "wdata", "write_data", "argument", "arguments", "args", "input", "new"),
    "reply": ("read", "rdata", "read_data", "result", "returned", "return", "response", "resp", "found", "output", "old", "data"),
    "issued": ("start", "begin", "started", "issue", "invoke", "invoked", "call", "called", "request_time", "time", "start_time"),
    "answered": ("end", "finish", "finished", "ended", "done", "complete", "completed", "response_time", "end_time", "time_end"),
    "served": ("service", "effect", "commit", "committed", "time"),
    "index": ("number", "sequence", "seq"),
    "bank": ("slice", "home", "controller"),
}

OPERATIONS: Dict[str, Sequence[str]] = {
    "load": ("read", "get", "rd", "ld", "r"),
    "store": ("write", "put", "wr", "st", "w", "set"),
    "swap": ("exchange", "xchg"),
    "cas": ("compare_and_swap", "compare_exchange", "cmpxchg"),
    "add": ("fetch_add", "fetch_and_add", "increment"),
}


def guess_columns(missing: Sequence[str], columns: Sequence[str], wanted: Sequence[str]) -> Dict[str, str]:
    """Of columns that are missing those that probably are it, of the others that the first line names."""
    left: List[str] = [it for it in columns if it and it not in wanted]
    found: Dict[str, str] = {}
    for is_near in (False, True):
        for name in missing:
            plain = {it.lower().replace(" ", "_").replace("-", "_"): it for it in reversed(left)}
            known = [it for it in (name, *ELSEWHERE.get(name, ())) if it in plain]
            known = known or (difflib.get_close_matches(name, plain, 1, 0.75) if is_near else [])
            if name not in found and known:
                found[name] = plain[known[0]]
                left.remove(found[name])
    return found


def hint(missing: Sequence[str], columns: Sequence[str], wanted: Sequence[str]) -> str:
    """Which columns were probably meant, to stand behind a line; empty where none is known."""
    found = guess_columns(missing, columns, wanted)
    pairs = [f"`{found[it]}` for {it}" for it in missing if it in found]
    return f"; did you write {', '.join(pairs)}?" if pairs else ""


def operation_hint(kind: str, kinds: Collection[str]) -> str:
    """Which of these operations was probably meant, to stand behind a line; empty where none is known."""
    plain = kind.lower().replace(" ", "_").replace("-", "_")
    found = [it for it in kinds if plain == it or plain in OPERATIONS.get(it, ())]
    return f"; did you write `{kind}` for {found[0]}?" if found else ""
