"""Starts a program that isn't built yet, or looks at a command without proofs (--unproved), or builds the library for C
(--library), with proofs or without. The first word names the program that answers the others, by the fewest crates."""

from __future__ import annotations

import os
import signal
import sys

sys.dont_write_bytecode = True
# Until there is something to put in order, an interrupt ends this at once.
if signal.getsignal(signal.SIGINT) != signal.SIG_IGN:
    signal.signal(signal.SIGINT, signal.SIG_DFL)

import look  # noqa: E402
import unproved  # noqa: E402
import unproved_library  # noqa: E402
import words  # noqa: E402
from bitcode import NotKept, NotMade  # noqa: E402
from build import LIBRARY, PROGRAM, Interrupted, build, made_file, say  # noqa: E402
from crates import ROOT  # noqa: E402


def told(answer: words.Answer) -> int:
    """Prints what there is to say without the program."""
    out = sys.stdout if answer.is_asked_for else sys.stderr
    for stream, text in ((out, answer.text), (sys.stderr, answer.reason)):
        try:
            stream.buffer.write(os.fsencode(text))
            stream.flush()
        except OSError:
            # No second attempt when Python ends.
            os.dup2(os.open(os.devnull, os.O_WRONLY), stream.fileno())
    return answer.status


def library(rest: list[str]) -> int:
    """Proves and builds the library for C, where that is still to be done, and prints its path; or makes it without proofs."""
    if rest == ["--unproved"]:
        return library_without_proofs()
    if rest:
        say("--library takes no other words but --unproved")
        return 2
    status = build(LIBRARY)
    return status or told(words.Answer(f"{ROOT}/crates/{LIBRARY}/out/{made_file(LIBRARY)}\n", 0, True))


def library_without_proofs() -> int:
    """Prints the path of the library that is compiled without proofs, and makes it first where that is to be done."""
    say(unproved_library.NOTE)
    try:
        path = unproved_library.made()
    except NotMade as why:
        return look.told(why)
    except NotKept as why:
        say(f"the library was not made: {why}")
        return 127
    except Interrupted:
        say("interrupted. Nothing is kept of this library")
        return 130
    return told(words.Answer(f"{path}\n", 0, True))


def main(name: str, given: list[str]) -> int:
    if given[:2] == ["--unproved", "--library"]:
        return library(["--unproved", *given[2:]])
    if given[:1] == ["--library"]:
        return library(given[1:])
    if given[:1] == ["--unproved"]:
        return unproved.run(name, given[1:], told)
    asked = words.asked(given)
    answer = words.unread(asked) if isinstance(asked, words.Job) else asked
    if answer is not None:
        status = told(answer)
        if answer.is_asked_for and status == 2:
            say("the program isn't built yet: its first command proves and builds it, and says how far it is")
        return status
    status = build(name)
    if status:
        return status
    for it in (signal.SIGPIPE, signal.SIGXFSZ):
        signal.signal(it, signal.SIG_DFL)
    # By its first word a program names itself.
    os.execv(f"{ROOT}/crates/{name}/out/{name}", [f"{ROOT}/{PROGRAM}", *given])


if __name__ == "__main__":
    sys.exit(main(sys.argv[1], sys.argv[2:]))
