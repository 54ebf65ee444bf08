"""Proves the crates that a program, or the library for C, stands on side by side, and builds it.

`rt` locks a crate and all below it, so two runs over a common crate wait for each other. Here each crate is proved in a
view of its own: a folder with the sources of the crate and of those below it, and what was proved of these (hard links,
where the file system has them). What comes of it is moved into the crate's own out/ at once, where `rt` finds it later. A
view is of the sources as they were at the start."""

from __future__ import annotations

import contextlib
import ctypes
import fcntl
import hashlib
import os
import re
import resource
import shutil
import signal
import subprocess
import sys
import tempfile
import time
from typing import Iterator

from crates import ROOT, Plan, below, rows

PARTS = ("src", "specs", "proofs")
# The program with all commands, and that of fewer crates, which has these alone.
PROGRAM, SMALL_PROGRAM = "torusmem", "torusmem_rounds"
OF_SMALL = "round, steps, check, route and channels"
# The library for C.
LIBRARY = "torusmem_c"
# Free memory for each process of a check, in KiB.
ROOM = 2_500_000
# The file beside what a crate's build has made that says what it was proved from.
MARK = "launcher"
SIGNALS = (signal.SIGINT, signal.SIGTERM, signal.SIGHUP)


class Interrupted(Exception):
    """A signal ended the build."""


class Failed(Exception):
    """A crate isn't proved: its name and the last lines of the prover."""


def say(text: str) -> None:
    sys.stderr.write(f"torusmem: {text}\n")  # at once, so that lines of two commands in a pipe don't mix
    sys.stderr.flush()


def number_in(file: str, pattern: str) -> int | None:
    try:
        with open(file, encoding="utf-8") as text:
            found = re.search(pattern, text.read())
        return int(found[1]) if found else None
    except OSError:
        return None


def free_memory() -> int:
    """The free memory in KiB, of the computer or of the control group."""
    free = number_in("/proc/meminfo", r"MemAvailable:\s+(\d+)") or ROOM
    limit = number_in("/sys/fs/cgroup/memory.max", r"^(\d+)")
    held = number_in("/sys/fs/cgroup/memory.stat", r"anon (\d+)")
    return min(free, (limit - held) // 1024) if limit and held is not None else free


def cores() -> int:
    """How many processors there are for this, and memory for a process on each."""
    found = len(os.sched_getaffinity(0))
    quota = number_in("/sys/fs/cgroup/cpu.max", r"^(\d+)")
    period = number_in("/sys/fs/cgroup/cpu.max", r" (\d+)")
    if quota and period:
        found = min(found, quota // period)
    return max(min(found, free_memory() // ROOM), 1)


def link_tree(source: str, target: str) -> None:
    def link(old: str, new: str) -> None:
        try:
            os.link(old, new)
        except OSError:
            shutil.copy2(old, new)

    shutil.copytree(source, target, copy_function=link)


def end_session(leader: int) -> None:
    """Ends all processes of the session that this program began by its child `leader`, and waits for that."""
    while True:
        found = []
        for name in os.listdir("/proc"):
            try:
                if name.isdigit() and os.getsid(int(name)) == leader:
                    with open(f"/proc/{name}/stat", encoding="utf-8", errors="replace") as file:
                        if file.read().rpartition(")")[2].split()[0] not in "ZX":
                            found.append(int(name))
            except OSError:
                pass
        if not found:
            return
        for it in found:
            try:
                os.kill(it, signal.SIGKILL)
            except ProcessLookupError:
                pass
        time.sleep(0.05)


@contextlib.contextmanager
def undisturbed() -> Iterator[None]:
    """Puts off signals until what moves an out/ is done."""
    signal.pthread_sigmask(signal.SIG_BLOCK, SIGNALS)
    try:
        yield
    finally:
        signal.pthread_sigmask(signal.SIG_UNBLOCK, SIGNALS)


def end_with_parent() -> None:
    """Has a child end when this program is killed, and take signals."""
    signal.pthread_sigmask(signal.SIG_UNBLOCK, SIGNALS)
    ctypes.CDLL(None).prctl(1, signal.SIGKILL)


def is_program(name: str) -> bool:
    return name in (PROGRAM, SMALL_PROGRAM)


def made_file(name: str) -> str | None:
    """The file in its out/ that a program's build makes, or that of the library for C; None of a crate that others use."""
    return name if is_program(name) else f"lib{name}.a" if name == LIBRARY else None


def what_of(name: str) -> str:
    """What a build of this crate makes, in words."""
    return "library" if name == LIBRARY else "program"


def processor_time() -> float:
    """The processor seconds of all child processes that have ended."""
    used = resource.getrusage(resource.RUSAGE_CHILDREN)
    return used.ru_utime + used.ru_stime


class Run:
    """A crate that is being proved, in its view."""

    def __init__(self, name: str, view: str, held: int) -> None:
        self.name, self.view, self.held = name, view, held
        self.folder = f"{view}/crates/{name}"
        self.began, self.spent = time.monotonic(), 0.0
        words = ["run", "--jobs", "1", "--", "check", "stdout"] if is_program(name) else ["lib", "--jobs", "1"]
        with open(f"{view}/said", "wb") as said:
            self.child = subprocess.Popen(
                [sys.executable, f"{ROOT}/launcher/rt_once.py", *words],
                cwd=self.folder,
                stdin=subprocess.DEVNULL,
                stdout=said,
                stderr=subprocess.STDOUT,
                start_new_session=True,
                preexec_fn=end_with_parent,
            )

    def has_ended(self) -> bool:
        """Whether it has ended; then the processor time of all its processes is known."""
        before = processor_time()
        if self.child.poll() is None:
            return False
        self.spent = processor_time() - before
        return True

    def said(self) -> bytes:
        with open(f"{self.view}/said", "rb") as file:
            return file.read()


class Build:
    def __init__(self, top: str = PROGRAM) -> None:
        listed = rows(ROOT)
        self.top, self.names = top, below(listed, top)
        self.rows = {it: listed[it] for it in self.names}
        # How many crates the other commands stand on beside these.
        self.others = len({*below(listed, PROGRAM)} - {*self.names})
        self.began, self.since = time.monotonic(), time.time()
        self.log_name = f"{ROOT}/out/build.log"
        self.running: dict[str, Run] = {}
        # Of each crate that was proved here: its seconds.
        self.took: dict[str, float] = {}
        self.is_seen = sys.stderr.isatty()
        self.drawn = 0.0
        self.alone: set[str] = set()

    def __enter__(self) -> Build:
        os.makedirs(f"{ROOT}/out", exist_ok=True)
        self.lock = open(f"{ROOT}/out/build.lock", "w", encoding="utf-8")
        try:
            fcntl.flock(self.lock, fcntl.LOCK_EX | fcntl.LOCK_NB)
        except BlockingIOError:
            say("waits for another ./torusmem that is building")
            fcntl.flock(self.lock, fcntl.LOCK_EX)
        # In .git it lies on the same disk, and no command of rt looks there for crates.
        kept = f"{ROOT}/.git/torusmem-build"
        if os.path.isdir(f"{ROOT}/.git") and os.access(f"{ROOT}/.git", os.W_OK):
            shutil.rmtree(kept, ignore_errors=True)
            os.mkdir(kept)
            self.room = kept
        else:
            self.room = tempfile.mkdtemp(prefix="torusmem-build-")
        return self

    def __exit__(self, *_: object) -> None:
        for it in [*self.running.values()]:
            self.end(it)
        self.clear_line()
        shutil.rmtree(self.room, ignore_errors=True)
        self.lock.close()

    # What is to be done.

    def look(self) -> None:
        """Copies the sources, and finds out what was proved from just these."""
        version = subprocess.run(["rt", "version"], capture_output=True, check=True, stdin=subprocess.DEVNULL).stdout
        self.marks: dict[str, str] = {}
        for name in self.names:
            line, uses = self.rows[name]
            sum_ = hashlib.sha256(repr((version, line, [self.marks[it] for it in uses])).encode())
            source, copy = f"{ROOT}/crates/{name}", f"{self.room}/sources/{name}"
            os.makedirs(copy)
            for part in sorted(os.listdir(source)):
                if part in PARTS:
                    shutil.copytree(f"{source}/{part}", f"{copy}/{part}")
                elif os.path.isfile(f"{source}/{part}"):
                    shutil.copy2(f"{source}/{part}", f"{copy}/{part}")
            for at, folders, files in os.walk(copy):
                folders.sort()
                for it in sorted(files):
                    with open(f"{at}/{it}", "rb") as file:
                        text = file.read()
                    sum_.update(repr((os.path.relpath(f"{at}/{it}", copy), text)).encode())
            self.marks[name] = sum_.hexdigest()
        self.done = {it for it in self.names if self.is_proved(it)}

    def mark_of(self, name: str, folder: str) -> tuple[str, str]:
        """The file of a crate's mark, and what it says of what stands there now."""
        made = made_file(name)
        if made is None:
            return f"{folder}/out/rlib/{MARK}", self.marks[name]
        with open(f"{folder}/out/{made}", "rb") as file:
            return f"{folder}/out/{MARK}", self.marks[name] + hashlib.sha256(file.read()).hexdigest()

    def is_proved(self, name: str) -> bool:
        try:
            file, mark = self.mark_of(name, f"{ROOT}/crates/{name}")
            with open(file, encoding="utf-8") as it:
                return it.read() == mark
        except OSError:
            return False

    # A crate's view.

    def start(self, name: str) -> bool:
        """Begins a crate, if no other rt works in its folder."""
        folder = f"{ROOT}/crates/{name}"
        held = os.open(folder, os.O_RDONLY)
        try:
            fcntl.flock(held, fcntl.LOCK_EX | fcntl.LOCK_NB)
        except BlockingIOError:
            os.close(held)
            return False
        view = f"{self.room}/{name}"
        used = below(self.rows, name)
        for it in used:
            link_tree(f"{self.room}/sources/{it}", f"{view}/crates/{it}")
            if it != name:
                link_tree(f"{ROOT}/crates/{it}/out/rlib", f"{view}/crates/{it}/out/rlib")
        with open(f"{view}/crates.txt", "w", encoding="utf-8") as file:
            file.write("".join(f"{self.rows[it][0]}\n" for it in used))
        with undisturbed():
            if os.path.isdir(f"{folder}/out"):
                shutil.move(f"{folder}/out", f"{view}/crates/{name}/out")
            self.running[name] = Run(name, view, held)
        return True

    def end(self, run: Run, is_proved: bool = False) -> None:
        with undisturbed():
            self.put_back(run, is_proved)

    def put_back(self, run: Run, is_proved: bool) -> None:
        """Moves what a crate's run has made back into the crate. Of one that isn't proved that is the prover's own kept work."""
        end_session(run.child.pid)
        run.child.wait()
        out = f"{run.folder}/out"
        if is_proved:
            file, mark = self.mark_of(run.name, run.folder)
            with open(file, "w", encoding="utf-8") as marked:
                marked.write(mark)
        elif os.path.isdir(out):
            for it in os.listdir(out):
                if it != "incremental":
                    remove(f"{out}/{it}")
        to = f"{ROOT}/crates/{run.name}/out"
        if os.path.isdir(out):
            remove(to)
            if os.stat(self.room).st_dev != os.stat(ROOT).st_dev:
                shutil.copytree(out, f"{to}.part", dirs_exist_ok=True)
                os.rename(f"{to}.part", to)
            else:
                os.rename(out, to)
        with open(self.log_name, "ab") as log:
            spent = f"{run.spent:.0f} s of processor time" if run.spent else "was ended"
            log.write(f"== {run.name}: {spent}\n".encode() + run.said())
        os.close(run.held)
        shutil.rmtree(run.view, ignore_errors=True)
        del self.running[run.name]

    # The whole.

    def prove(self) -> None:
        """Proves and builds what isn't yet."""
        todo = [it for it in self.names if it not in self.done]
        uses = {it: [use for use in below(self.rows, it)[:-1] if use in todo] for it in todo}
        self.plan = Plan(uses, cores())
        self.total = len(todo)
        self.finished: set[str] = set()
        open(self.log_name, "wb").close()
        if todo:
            self.announce(todo)
        while len(self.finished) < self.total:
            self.start_more()
            for run in [*self.running.values()]:
                if run.has_ended():
                    self.ended(run)
            self.draw()
            time.sleep(0.1)

    def announce(self, todo: list[str]) -> None:
        left = self.plan.left(set(), {})
        is_small = self.top == SMALL_PROGRAM
        above, made = (f"{OF_SMALL} stand", "a program of these") if is_small else (f"the {what_of(self.top)} stands", "it")
        say(f"proves {len(todo)} of the {len(self.names)} crates that {above} on, up to {self.plan.cores} at a time,")
        once = "once" if self.top == LIBRARY else "once; then the next start is immediate"
        say(f"and builds {made}. That takes about {minutes(left)}, {once}. Ctrl-C keeps what is proved.")
        if is_small:
            say(f"The other commands stand on {self.others} crates more, which the first of them proves.")
        if is_program(self.top):
            say("`./torusmem --unproved ..` looks without proofs.")
        say(f"What the prover says goes to {os.path.relpath(self.log_name, os.getcwd())}")

    def start_more(self) -> None:
        held: set[str] = set()
        while (name := self.plan.chosen(self.finished, {*self.running}, held)) is not None:
            is_full = bool(self.running) and free_memory() < ROOM
            if is_full or (self.running and (name in self.alone or self.alone & {*self.running})):
                return
            if not self.start(name):
                held.add(name)

    def ended(self, run: Run) -> None:
        status, took = run.child.returncode, time.monotonic() - run.began
        # The check of the stored report shows that the program was built.
        is_proved = status == 0
        said = run.said()
        self.end(run, is_proved)
        if is_proved:
            self.finished.add(run.name)
            self.took[run.name] = took
            if not self.is_seen:
                left = f", about {minutes(self.left())} left" if len(self.finished) < self.total else ""
                say(f"proved {run.name} in {took:.0f} s ({len(self.finished)} of {self.total}{left})")
        elif status in (-9, 137, 247) and run.name not in self.alone:
            self.alone.add(run.name)
        else:
            lines = [it for it in said.decode("utf-8", "replace").splitlines() if it.strip()]
            raise Failed(run.name, lines[-12:])

    def left(self) -> float:
        """The seconds that are left, about."""
        now = time.monotonic()
        gone = {it: now - run.began for it, run in self.running.items()}
        late = {it: seconds for it, seconds in gone.items() if seconds > self.plan.cost[it]}
        # A slower computer, or one with other work, shows in what is finished and in what is late.
        pace = self.plan.pace({**self.took, **late})
        return pace * self.plan.left(self.finished, {it: seconds / pace for it, seconds in gone.items()})

    # The line on the terminal.

    def draw(self) -> None:
        if not self.is_seen or time.monotonic() - self.drawn < 1:
            return
        self.drawn = now = time.monotonic()
        counts = f"proved {len(self.finished)} of {self.total} crates, {minutes(now - self.began)} gone"
        line = f"{counts}, about {minutes(self.left())} left: {', '.join(self.running)}"
        width = shutil.get_terminal_size().columns - 1
        sys.stderr.write("\r\x1b[K" + (line if len(line) <= width else line[: width - 2] + ".."))
        sys.stderr.flush()

    def clear_line(self) -> None:
        if self.drawn:
            sys.stderr.write("\r\x1b[K")
            sys.stderr.flush()
            self.drawn = 0.0


def minutes(seconds: float) -> str:
    return f"{seconds:.0f} s" if seconds < 90 else f"{seconds / 60:.0f} min"


def remove(path: str) -> None:
    if os.path.isdir(path) and not os.path.islink(path):
        shutil.rmtree(path)
    elif os.path.lexists(path):
        os.remove(path)


def interrupt(*_: object) -> None:
    # A second signal would cut short what puts things in order.
    for it in SIGNALS:
        signal.signal(it, signal.SIG_IGN)
    raise Interrupted


def is_marked(top: str) -> bool:
    """Whether what a crate makes stands there, proved from the sources as they are, whatever the times of the files."""
    with Build(top) as work:
        work.look()
        return top in work.done


def build(top: str = PROGRAM) -> int:
    """Proves and builds the program or the library, and answers 0, or else the status with which the launcher ends."""
    what, made = what_of(top), made_file(top)
    if shutil.which("rt") is None:
        say(f"there is no command 'rt' on the path: the Rattle toolchain is needed to build the {what}")
        return 127
    for it in SIGNALS:
        if it != signal.SIGHUP or signal.getsignal(it) != signal.SIG_IGN:
            signal.signal(it, interrupt)
    work = Build(top)
    try:
        with work:
            work.look()
            work.prove()
            # A source that was changed meanwhile is newer.
            if made is not None:
                os.utime(f"{ROOT}/crates/{top}/out/{made}", (work.since, work.since))
    except Interrupted:
        say("interrupted. What was proved is kept, and the next start goes on from there")
        return 130
    except Failed as failed:
        name, lines = failed.args
        for line in lines:
            print(line, file=sys.stderr)
        say(f"the {what} was not built: {name} is not proved, as the lines above say, and all lines in {work.log_name}")
        return 127
    except OSError as fault:
        say(f"the {what} was not built: {fault}")
        return 127
    if work.total:
        say(f"proved and built in {minutes(time.monotonic() - work.began)}")
    return 0
