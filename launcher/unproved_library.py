"""Makes the library for C without proofs, to try it within some minutes: `./torusmem --library --unproved`.

It stands in a folder of its own below out/unproved/, whose name has a sum of its sources, and out/unproved/library leads there:
libtorusmem_unproved.a, and the files of include/ beside it, whose first lines say that nothing of it is proved. So does its
symbol torusmem_unproved, by which torusmem_version of include/torusmem_text.c adds `-unproved` to the version. The toolchain
compiles programs alone without proofs. So here the sources get a main function that reaches each call, and what C calls is put
behind the text of the bitcode. A check of an overflow, say, that fails ends the process."""

from __future__ import annotations

import glob
import hashlib
import os
import re
import shutil
import tempfile
from typing import BinaryIO

import bitcode
from bitcode import NotMade, full_disk_or, kit
from build import LIBRARY, minutes, say
from crates import ROOT
from look import FLAGS, FOLDER, Look, call, is_there, locked, note, sum_of_sources, take_signals

ARCHIVE = "libtorusmem_unproved.a"
LINK = f"{FOLDER}/library"
NOTE = "NOTHING OF THIS IS PROVED. The library is compiled without proofs, with checks while it runs, and is slower than the proved one"
MADE = Look(LIBRARY, "-O1", "the library without proofs", "lock-library", 130.0, 60.0)
EXPORT = re.compile(r'#\[unsafe\(no_mangle\)\]\s*pub extern "C" fn (\w+)\((.*?)\)\s*(->|ensures|requires|ghost|\{)', re.S)
# What a call that isn't made is given for a parameter, by its type: a number, a slice or a reference.
GIVEN = [
    (re.compile(r"Global"), "alloc"),
    (re.compile(r"[ui](8|16|32|64|size)"), "0"),
    (re.compile(r"bool"), "false"),
    (re.compile(r"&mut \[.*\]"), "&mut []"),
    (re.compile(r"&\[.*\]"), "&[]"),
    (re.compile(r"&mut (\w+)"), r"unsafe { &mut *std::ptr::null_mut::<\1>() }"),
    (re.compile(r"&(\w+)"), r"unsafe { &*std::ptr::null::<\1>() }"),
]
MAIN = """
fn reached<R: AllocGlobal>(rt: &R, is_seen: bool) {
    if is_seen {
%s
    }
}

fn main(rt: HostRuntime) -> ExitCode {
    let is_seen = rt.stderr().is_terminal();
    reached(&rt, is_seen);
    ExitCode::SUCCESS
}
"""
# A call's function in the text of the bitcode: what it answers, its whole name, and its parameters.
DEFINED = re.compile(r'(?m)^define internal (.*?) ?(@"\w+::\w+::(torusmem_\w+)")\((.*)\) #\d+ \{$')


def value_for(name: str, parameter: str) -> str:
    """What a call of this name is given for a parameter."""
    type_ = parameter.partition(":")[2].strip()
    for pattern, value in GIVEN:
        found = pattern.fullmatch(type_)
        if found:
            return found.expand(value)
    raise NotMade([], f"the library was not made: {name} takes a {type_}, which launcher/unproved_library.py doesn't know", 127)


def with_main(folder: str) -> dict[str, bool]:
    """Copies the sources of the library into this folder, as those of a program that reaches its calls; and for each of these,
    whether it answers something."""
    shutil.copytree(f"{ROOT}/crates/{LIBRARY}/src", f"{folder}/src")
    calls: dict[str, bool] = {}
    lines = []
    for path in sorted(glob.glob(f"{glob.escape(folder)}/src/*.rt")):
        with open(path, encoding="utf-8") as file:
            exports = EXPORT.findall(file.read())
        made = []
        for name, parameters, behind in exports:
            calls[name] = behind == "->"
            listed = [it for it in " ".join(parameters.split()).rstrip(", ").split(", ") if it]
            made.append(f"    {'let _ = ' * calls[name]}{name}({', '.join(value_for(name, it) for it in listed)});\n")
        if made:
            lines.append(f"        {os.path.basename(path)[:-3]}::reached(rt.alloc());")
            with open(path, "a", encoding="utf-8") as file:
                file.write(f"\npub fn reached(alloc: std::alloc::Global) {{\n{''.join(made)}}}\n")
    with open(f"{folder}/src/lib.rt", encoding="utf-8") as file:
        head, mark, rest = file.read().partition("#![tactic(auto)]\n")
    os.remove(f"{folder}/src/lib.rt")
    with open(f"{folder}/src/main.rt", "w", encoding="utf-8") as file:
        file.write(f"{head}{mark}\nuse std::io::IsTerminal;\nuse std::process::ExitCode;\n{rest}{MAIN % chr(10).join(lines)}")
    return calls


def shown(room: str, calls: dict[str, bool]) -> None:
    """Writes the text of the bitcode with a function for C in front of each call, and hides the main function."""
    with open(f"{room}/module.ll", encoding="utf-8") as file:
        text = file.read()
    found = {it[3]: it for it in DEFINED.finditer(text)}
    lacking = sorted({*calls} - {*found})
    if lacking:
        raise bitcode.NotKept(f"the bitcode has no {lacking[0]}")
    with open(f"{room}/shown.ll", "w", encoding="utf-8") as file:
        file.write(text.replace("define i32 @main()", "define internal i32 @main()"))
        bytes_ = f"torusmem: {NOTE}\\00"
        file.write(f'\n@torusmem_unproved = constant [{len(bytes_) - 2} x i8] c"{bytes_}", align 1\n')
        for name, answers in sorted(calls.items()):
            file.write(for_c(name, answers, *found[name].group(1, 2, 4)))


def for_c(name: str, answers: bool, answer: str, whole: str, parameters: str) -> str:
    """The function of a call as C calls it. What is too large for registers is put where its first parameter points, and C also
    wants that answered (System V ABI for AMD64, 3.2.3)."""
    answer = re.sub(r"\b(noundef|zeroext|signext) ?", "", answer).strip()
    calling = f"call {answer} {whole}({parameters})"
    if answer != "void":
        return f"\ndefine {answer} @{name}({parameters}) {{\n  %r = {calling}\n  ret {answer} %r\n}}\n"
    if not answers:
        return f"\ndefine void @{name}({parameters}) {{\n  {calling}\n  ret void\n}}\n"
    return f"\ndefine ptr @{name}({parameters}) {{\n  {calling}\n  ret ptr %a0\n}}\n"


def copies(room: str) -> None:
    """Copies the files that a program is compiled with, which say first that nothing is proved."""
    for path in sorted(glob.glob(f"{ROOT}/include/*")):
        with open(path, encoding="utf-8") as file:
            text = file.read()
        with open(f"{room}/{os.path.basename(path)}", "w", encoding="utf-8") as file:
            file.write(f"/* {NOTE}.\n   This copy is that of {ARCHIVE}. What is said of proofs below is of the proved library alone. */\n{text}")


def path_of_sources() -> str:
    """Where the library of the sources as they are now stands, or will stand."""
    found = hashlib.sha256(sum_of_sources(MADE).encode())
    for path in [os.path.realpath(__file__), *sorted(glob.glob(f"{ROOT}/include/*"))]:
        with open(path, "rb") as file:
            found.update(repr((os.path.basename(path), file.read())).encode())
    return f"{LINK}-{found.hexdigest()[:16]}"


def make(path: str, lock: BinaryIO) -> None:
    """Makes the library apart, and gives it its name at the end."""
    for it in glob.glob(f"{glob.escape(FOLDER)}/making-{LIBRARY}-*"):
        # Of one that was killed. The lock says that none is under way.
        shutil.rmtree(it, ignore_errors=True)
    room, clang = tempfile.mkdtemp(prefix=f"making-{LIBRARY}-", dir=FOLDER), f"{kit()}/toolchain/bin/clang"
    try:
        note(lock)
        calls = with_main(f"{room}/sources")
        bitcode.take_of_library(LIBRARY, f"{room}/sources", room)
        note(lock)
        text = ["-S", "-emit-llvm", "-Xclang", "-disable-llvm-passes", "module.bc", "-o", "module.ll"]
        call(room, clang, *(it for it in FLAGS if it not in ("-c", "-fPIE")), *text)
        shown(room, calls)
        flags = ["-fPIC" if it == "-fPIE" else it for it in FLAGS]
        call(room, clang, *flags, MADE.optimization, "shown.ll", "-o", "torusmem_unproved.o")
        os.mkdir(f"{room}/made")
        call(room, f"{kit()}/toolchain/bin/llvm-ar", "rcD", f"made/{ARCHIVE}", "torusmem_unproved.o")
        copies(f"{room}/made")
        if path_of_sources() != path:
            raise NotMade([], "the library was not made: a source has changed meanwhile", 127)
        os.rename(f"{room}/made", path)
        for it in glob.glob(f"{glob.escape(LINK)}-*"):
            if it != path:
                shutil.rmtree(it, ignore_errors=True)
    finally:
        shutil.rmtree(room, ignore_errors=True)


def made() -> str:
    """The path of the library without proofs, which is made where it isn't there."""
    path = path_of_sources()
    if not is_there(path):
        take_signals()
        if shutil.which("rt") is None:
            raise NotMade([], "there is no command 'rt' on the path: the Rattle toolchain is needed", 127)
        try:
            os.makedirs(FOLDER, exist_ok=True)
            with locked(MADE) as lock:
                if not is_there(path):
                    say(f"compiles it once, which takes about {minutes(MADE.seconds)}; the next time it is there at once")
                    make(path, lock)
        except OSError as fault:
            raise full_disk_or(bitcode.NotKept(str(fault)), FOLDER) from None
    if os.path.realpath(LINK) != path:
        os.symlink(os.path.basename(path), f"{LINK}.new")
        os.replace(f"{LINK}.new", LINK)
    return f"{LINK}/{ARCHIVE}"
