"""Makes and judges the checks of wrong bodies, for checks/wrong_bodies and checks/wrong_definitions.

What a check says of an edit depends on this file, on the toolchain, on the edit and on the sources of its crate and of those
below it. So checks/refused.txt has a sum of all these for each edit, and an edit is tried again once this file has changed.
"""
from __future__ import annotations

import glob
import os
import re
import shutil
import subprocess
import sys
import tempfile
import threading

ROOT = os.path.dirname(os.path.dirname(os.path.realpath(__file__)))
PARTS = ("src", "specs", "proofs")
HEADER = re.compile(r"(?m)^[ \t]*(?:pub(?:\([a-z]+\))? )?(?:const )?(?:unsafe )?(?:extern \x22C\x22 )?fn (\w+)")
IMPL = re.compile(r"(?m)^impl\b(?:<[^\n]*?>)? *([^\n{]+)")
CONTROL = "control"
SAID = threading.local()


class Function:
    """A function of a source file: its name, the type and trait of its impl, and its lines."""

    def __init__(self, path, name, owner, first, last):
        self.path, self.name, self.owner, self.first, self.last = path, name, owner, first, last

    def key(self):
        return self.path, self.owner, self.name


class Edit:
    """A wrong body: its name, and triples of a file, a text and what stands in its place."""

    def __init__(self, name, changes):
        self.name, self.changes = name, changes


def say(text=""):
    """Prints a line; where checks are made side by side, with the other lines of its check, once that is through."""
    lines = getattr(SAID, "lines", None)
    if lines is None:
        print(text, flush=True)
    else:
        lines.append(text)


def read(path):
    with open(path, encoding="utf-8") as it:
        return it.read()


def edit_of(path):
    """Reads an edit, as `rt must-fail` does."""
    file, old, changes = "", None, []
    for line in read(path).split("\n"):
        if line.startswith("file: "):
            file = line[len("file: "):].strip()
        elif line.startswith("old: "):
            old = line[len("old: "):]
        elif line.startswith("new:"):
            new = line[len("new:"):]
            changes.append((file, old, new[1:] if new.startswith(" ") else new))
    return Edit(os.path.basename(path)[:-len(".edit")], changes)


def owner_at(text, at):
    """The type and trait of the impl block that a place is in, as rattle joins them: 'TypeTrait'."""
    blocks = [it for it in IMPL.finditer(text, 0, at) if text[it.end():it.end() + 2] != "{}" and "\n}\n" not in text[it.end():at]]
    if not blocks:
        return ""
    trait, _, of = blocks[-1][1].split(" where ")[0].strip().partition(" for ")
    plain = lambda words: re.sub(r"<.*", "", words).strip().split("::")[-1]
    # a trait's parameters belong to the name: From<AllocError> for Fault is FaultFromAllocError
    joined = lambda words: "".join(re.findall(r"\w+", re.sub(r"\w+::", "", words)))
    return plain(of) + joined(trait) if of else plain(trait)


def functions_of(path, text):
    """The functions of a file, each with the comment and the attributes above it."""
    heads, rows, found = list(HEADER.finditer(text)), text.split("\n"), []
    for head in heads:
        first = text.count("\n", 0, head.start()) + 1
        while first > 1 and rows[first - 2].lstrip().startswith(("#[", "///")):
            first -= 1
        found.append(Function(path, head[1], owner_at(text, head.start()), first, len(rows)))
    for here, after in zip(found, found[1:]):
        here.last = after.first - 1
    for here, head in zip(found, heads):
        # what stands behind its last brace isn't its own, as an enum or the end of an impl
        end = rows[text.count("\n", 0, head.start())].partition(head[0].lstrip())[0] + "}"
        ends = [k for k in range(here.first, here.last + 1) if rows[k - 1] == end]
        here.last = ends[0] if ends else here.last
    return found


def readers_of(text, line, functions):
    """The functions of a file that name the constant of a line; all of them where the line has none."""
    rows = text.split("\n")
    constant = re.match(r"(?:pub(?:\([a-z]+\))? )?(?:const|static) (\w+)", rows[line - 1]) if line else None
    naming = [it for it in functions if constant and re.search(rf"\b{constant[1]}\b", "\n".join(rows[it.first - 1:it.last]))]
    return naming or functions


def body_start(text, function):
    """Where a function's body begins: behind the brace of the last group of braces that ends within its lines (behind
    the function may begin an impl). None where it has no body, as a trait's: then a semicolon is behind that group."""
    rows = text.split("\n")
    at = sum(len(row) + 1 for row in rows[:function.first - 1])
    end = sum(len(row) + 1 for row in rows[:function.last])
    depth, opened, start = 0, None, None
    for place in range(at, min(end, len(text))):
        if text[place] == "{":
            if depth == 0:
                opened = place + 1
            depth += 1
        elif text[place] == "}":
            depth -= 1
            if depth < 0:
                break
            if depth == 0:
                start = None if text[place + 1:place + 2] == ";" else opened
    return start


class Crate:
    def __init__(self, name):
        self.name, self.folder = name, f"{ROOT}/crates/{name}"
        self.texts, self.known, self.methods = {}, [], None

    def text(self, path):
        if path not in self.texts:
            self.texts[path] = read(f"{self.folder}/{path}")
        return self.texts[path]

    def edits(self, kinds):
        return [edit_of(it) for kind in kinds for it in sorted(glob.glob(f"{self.folder}/{kind}/*.edit"))]

    def touched(self, edit):
        """The functions that an edit changes; None where it changes what is no function's."""
        found, texts = {}, {}
        for path, old, new in edit.changes:
            if not path.startswith("src/"):
                return None
            # A change applies to what the ones before it have made.
            text = texts.get(path) or self.text(path)
            at = text.find(old or "")
            line = text.count("\n", 0, at + len(old) - 1) + 1 if at >= 0 else 0
            functions = functions_of(path, text)
            within = [it for it in functions if it.first <= line <= it.last and body_start(text, it)]
            for it in within or readers_of(text, line, functions):
                found[it.key()] = it
            texts[path] = text.replace(old, new) if at >= 0 else text
        return found

    def path_of(self, function):
        """What rattle calls a function that stands in the file of its type."""
        module = function.path[len("src/"):-len(".rt")].replace("/", "::")
        module = self.name if module in ("lib", "main") else f"{self.name}::{module}"
        return "::".join(it for it in (module, function.owner, function.name) if it)

    def end_of(self, function):
        """The end of what rattle calls a method, which stands where its type does; the whole path where two types have such a method."""
        if not function.owner:
            return self.path_of(function)
        if self.methods is None:
            paths = sorted(os.path.relpath(it, self.folder) for it in glob.glob(f"{self.folder}/src/**/*.rt", recursive=True))
            self.methods = [(it.owner, it.name) for path in paths for it in functions_of(path, self.text(path))]
        is_one = self.methods.count((function.owner, function.name)) == 1
        return f"{function.owner}::{function.name}" if is_one else self.path_of(function)

    def names(self, function):
        """What rattle calls a function: its paths among those that a check told; where none has, as it is guessed."""
        path = self.path_of(function)
        if not self.known:
            return [path]
        module = path[:-len(function.name)].rstrip(":")
        module = module[:-len(function.owner)].rstrip(":") if function.owner else module
        method = f"::{function.owner}::{function.name}"
        return (
            [it for it in self.known if it == path]
            # a method stands where its type does, which may be another module
            or [it for it in self.known if function.owner and it.endswith(method)]
            or [it for it in self.known if it.startswith(module + "::") and it.endswith("::" + function.name)]
        )


def with_edit(crate, texts, edit):
    """The texts with an edit applied to them too; None where a text that it names isn't there once."""
    changed = dict(texts)
    for path, old, new in edit.changes:
        text = changed.get(path) or crate.text(path)
        if old is None or text.count(old) != 1:
            return None
        changed[path] = text.replace(old, new)
    return changed


def batches(crate, edits):
    """The edits in as few checks as may be: one edit of a function in each, one of no function alone."""
    left, made = edits, []
    while left:
        texts, used, here, rest = {}, set(), [], []
        for edit in left:
            touched = crate.touched(edit)
            free = not here if touched is None else used is not None and not used & set(touched)
            changed = with_edit(crate, texts, edit) if free else None
            if changed is None:
                rest.append(edit)
                continue
            texts, here = changed, here + [edit]
            used = None if touched is None or used is None else used | set(touched)
        if not here:
            here, rest = [rest[0]], rest[1:]
            texts = None
        made.append((texts, here, used))
        left = rest
    return made


def control(crate, texts, used):
    """A body that changes nothing, of a function of the same files that no edit of a check changes."""
    for path in sorted(texts):
        text = texts[path]
        for function in functions_of(path, text):
            start = body_start(text, function)
            names = crate.names(function)
            if start is None or function.key() in used or not names or "tests" in path or text[start:].startswith("}"):
                continue
            module = path[len("src/"):-len(".rt")]
            if glob.glob(f"{crate.folder}/proofs/{module}/**/{function.name}", recursive=True):
                continue
            return function, {**texts, path: text[:start] + " let _harmless = 0u8;" + text[start:]}
    return None, texts


def output_of(command, room):
    """The status of a command, and all that it prints; the processor time that it took is added to that of the thread's check."""
    with tempfile.TemporaryFile("w+", encoding="utf-8", errors="replace") as said:
        ran = subprocess.Popen(command, cwd=room, stdin=subprocess.DEVNULL, stdout=said, stderr=subprocess.STDOUT)
        _, status, used = os.wait4(ran.pid, 0)
        ran.returncode = os.WEXITSTATUS(status) if os.WIFEXITED(status) else -os.WTERMSIG(status)
        SAID.spent = getattr(SAID, "spent", 0.0) + used.ru_utime + used.ru_stime
        said.seek(0)
        return ran.returncode, said.read()


class Kept:
    """Checks by `rt check`, over what earlier ones kept of the crate."""

    def names(self, crate, function):
        return crate.names(function)

    def check(self, crate, room, names):
        return output_of(["rt", "check", "--jobs", "1", *[word for it in names for word in ("--only", it)]], room)


class Alone:
    """Checks of some functions from nothing, over the libraries that are built: by the words by which `rt ci` has an edit
    checked, without its look at each library's sources, for `rt ci` has just proved them."""

    def __init__(self):
        sys.dont_write_bytecode = True
        sys.path.insert(0, os.path.dirname(os.path.realpath(shutil.which("rt") or "")))
        import rtlib  # the toolchain's own, beside rt

        self.command = [*rtlib.guarded(), rtlib.RATTLE, "check"]
        self.crates = {it.name: it for it in rtlib.crates_below(ROOT)}

    def unbuilt(self, name):
        """The libraries below a crate that aren't built."""
        return [it.name for it in self.crates[name].below() if not os.path.isfile(f"{it.rlib}/format")]

    def names(self, crate, function):
        return [crate.end_of(function)]

    def check(self, crate, room, names):
        words = [*self.command, *self.crates[crate.name].words(["--jobs", "1"], keeps=False)]
        names = list(names)
        for _ in range(2 * len(names) + 1):
            status, said = output_of([*words, *[word for it in names for word in ("--only", it)]], room)
            missing = re.search(r"has no function `([^`]+)`", said)
            # a method goes by the module of its type, which may be another one than that of its file
            if not missing or "::" not in missing[1] or missing[1] not in names:
                break
            parts = missing[1].split("::")
            names[names.index(missing[1])] = "::".join(parts[-2:] if len(parts) > 2 else parts[-1:])
        crate.known = re.findall(r"(?m)^fn (\S+?): ", said)
        return status, said


def reason(crate, said, texts, functions):
    """Why one of these functions is refused: the first open goal of its own; None where there is none."""
    for function in functions:
        names = crate.names(function)
        if not any(re.search(rf"(?m)^fn {re.escape(it)}: (?!proved)", said) for it in names):
            continue
        text = texts.get(function.path) or crate.text(function.path)
        now = next((it for it in functions_of(function.path, text) if it.key() == function.key()), function)
        for note in re.finditer(rf"(?m)^(?:note: )?(?:\./)?{re.escape(function.path)}:(\d+):\d+: (.*)", said):
            if now.first <= int(note[1]) <= now.last and "not proved" in note[2]:
                return f"{function.path}:{note[1]}: {note[2]}"
        answer = re.search(rf"(?m)^\./proofs/(?:\S+/)?{function.name}/\S+ error: .*", said)
        if answer:
            return answer[0]
    return None


def refused_whole(said):
    """Why a check of a changed definition fails: the first error that is more than a vanished name."""
    if "logic=not-proved" not in said:
        return None
    told = [it for it in said.split("\n") if re.match(r"(note: )?\S+:\d+:\d+:", it) and ": error" in it or it.startswith("note: src/")]
    names = re.compile(r"(\./)?proofs/.*(has no field|is not in scope|has no `|was not admitted)")
    return next((it for it in told if not names.match(it)), None)

def lines_of_crates():
    """The crates of the repository, each with those that its line in crates.txt names."""
    rows = [it.partition("#")[0].partition(":") for it in read(f"{ROOT}/crates.txt").split("\n")]
    return {name.split()[0]: deps.split() for name, colon, deps in rows if colon}


def below(name, lines):
    """A crate, and all that it stands on."""
    found, left = set(), [name]
    while left:
        one = left.pop()
        if one in lines and one not in found:
            found.add(one)
            left += lines[one]
    return found


def tree_of(crate, room):
    """A copy of the repository in which the crate's own files may be changed; the others are shared."""
    for name in ("crates.txt", "HANDLES"):
        shutil.copy(f"{ROOT}/{name}", f"{room}/{name}")
    lines = lines_of_crates()
    wanted = below(crate.name, lines)
    for name in lines:
        at = f"{room}/crates/{name}"
        os.makedirs(at)
        for part in (*PARTS, "out"):
            source = f"{ROOT}/crates/{name}/{part}"
            if os.path.isdir(source) and (part != "out" or name in wanted):
                link = os.link if name != crate.name else shutil.copy2
                try:
                    shutil.copytree(source, f"{at}/{part}", copy_function=link)
                except (OSError, shutil.Error):  # another file system
                    shutil.rmtree(f"{at}/{part}", ignore_errors=True)
                    shutil.copytree(source, f"{at}/{part}")
    return f"{room}/crates/{crate.name}"


def write(crate, room, texts):
    """Writes these texts, and the crate's own where an earlier check of the folder changed a file."""
    for path in sorted({*crate.texts, *texts}):
        wanted = texts.get(path, crate.text(path))
        if read(f"{room}/{path}") != wanted:
            with open(f"{room}/{path}", "w", encoding="utf-8") as it:
                it.write(wanted)


def try_batch(crate, room, batch, with_control, checker):
    """Tries the edits of one check; answers how many passed, how many failed, and which of several are to be tried alone."""
    texts, edits, used = batch
    if texts is None:
        say(f"  NOT TRIED    {edits[0].name}: a text that it names doesn't stand once in its file")
        return 0, 1, []
    harmless = None
    if with_control and used is not None:
        harmless, texts = control(crate, texts, used)
    names, passed, failed, again = [], 0, 0, []
    if used is not None:
        functions = [it for edit in edits for it in crate.touched(edit).values()] + [it for it in [harmless] if it]
        names = sorted({name for it in functions for name in checker.names(crate, it)})
    write(crate, room, texts)
    status, said = checker.check(crate, room, names)
    for edit in edits:
        touched = crate.touched(edit)
        why = refused_whole(said) if touched is None else reason(crate, said, texts, touched.values())
        if not why and len(edits) > 1:
            again.append(edit)
            continue
        say(f"  {'refused     ' if why else 'NOT REFUSED '} {edit.name}{': ' + why[:110] if why else ''}")
        passed, failed = passed + bool(why), failed + (not why)
        if not why:
            say("    " + "\n    ".join(said.rstrip().split("\n")[-3:]))
    if harmless:
        # it may call a function that a wrong body of this check breaks: then it isn't proved, and not refused either
        why = reason(crate, said, texts, [harmless])
        seen = any(re.search(rf"(?m)^fn {re.escape(it)}: ", said) for it in crate.names(harmless))
        good = seen and not why
        say(f"  {'control     ' if good else 'BAD CONTROL '} {harmless.name}: {'not refused, as it must be' if good else why or 'not tried'}")
        passed, failed = passed + good, failed + (not good)
    return passed, failed, again


def try_check(crate, room, batch, with_control, checker):
    """Tries the edits of one check, and again alone those of several that weren't refused; answers how many passed and failed."""
    passed, failed, again = try_batch(crate, room, batch, with_control, checker)
    # A function that calls one which another edit of the check breaks isn't proved, and not refused either.
    for alone in [it for edit in again for it in batches(crate, [edit])]:
        well, ill, _ = try_batch(crate, room, alone, False, checker)
        passed, failed = passed + well, failed + ill
    return passed, failed


def own_parts(crate, room):
    """A copy of the crate's own sources."""
    for part in PARTS:
        if os.path.isdir(f"{crate.folder}/{part}"):
            shutil.copytree(f"{crate.folder}/{part}", f"{room}/{part}")
    return room
