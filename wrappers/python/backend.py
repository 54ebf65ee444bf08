"""Makes what pip installs of this folder (PEP 517 and 660), by the standard library alone: so `pip install` needs no
other package, and no network. What it says of the package comes from pyproject.toml. Beside the package torusmem stands
torusmem_tools, where that is found: the tools of the repository, with the command `torusmem-tools`. With `-C library=FILE`
the wheel has that shared library in it, and is for Linux on x86-64. The same sources make the same bytes: the time of each
file is SOURCE_DATE_EPOCH, or 1980."""

from __future__ import annotations

import base64
import gzip
import hashlib
import io
import os
import re
import tarfile
import time
import zipfile
from typing import Any, Dict, Optional, Union

HERE = os.path.dirname(os.path.realpath(__file__))
# Where the tools stand: in a source package, in the repository, or in an archive.
PLACES = [".", "../../tools", "../../libexec/torusmem"]
TOOLS = next((it for it in PLACES if os.path.isdir(os.path.join(HERE, it, "torusmem_tools"))), None)
# What the tools have for the repository alone.
OF_REPOSITORY = ("torusmem_tools/repository/", "torusmem_tools/cli/reading.py")
LICENSES = ["LICENSE-APACHE", "LICENSE-MIT"]
# A zip has no earlier time.
EPOCH = max(int(os.environ.get("SOURCE_DATE_EPOCH") or 0), 315532800)


def read(name: str) -> str:
    with open(os.path.join(HERE, name), encoding="utf-8") as file:
        return file.read()


def files() -> Dict[str, str]:
    """The paths of all files of the packages in a wheel, each with its place from this folder."""
    found = {}
    for package, place in [("torusmem", "."), *[("torusmem_tools", it) for it in [TOOLS] if it]]:
        base = os.path.join(HERE, place)
        for folder, _, names in os.walk(os.path.join(base, package)):
            for name in names:
                path = os.path.relpath(os.path.join(folder, name), base)
                if name.endswith((".py", ".typed")) and not path.startswith(OF_REPOSITORY):
                    found[path] = os.path.join(place, path)
    return dict(sorted(found.items()))


def license_text(name: str) -> str:
    """A licence, of this folder, or of the repository that it lies in."""
    is_here = os.path.exists(os.path.join(HERE, name))
    return read(name if is_here else os.path.join("..", "..", name))


PROJECT = dict(re.findall(r'(?m)^([a-z-]+) = "(.*)"$', read("pyproject.toml")))
NAME, VERSION = PROJECT["name"], PROJECT["version"]
INFO = f"{NAME}-{VERSION}.dist-info"
# The commands that an installation has, each with the call that it makes.
SCRIPTS = re.findall(r"(?ms)^\[project\.scripts\]\n(.*?)(?:^\[|\Z)", read("pyproject.toml"))[0].replace('"', "")
METADATA = f"""Metadata-Version: 2.1
Name: {NAME}
Version: {VERSION}
Summary: {PROJECT["description"]}
Author: the torusmem authors
Requires-Python: {PROJECT["requires-python"]}
License: MIT OR Apache-2.0
License-File: LICENSE-APACHE
License-File: LICENSE-MIT
Classifier: Operating System :: POSIX :: Linux
Classifier: Programming Language :: Python :: 3
Classifier: Typing :: Typed
Description-Content-Type: text/markdown

{read("README.md")}"""


def wheel(folder: str, texts: Dict[str, Union[str, bytes]], platform: str = "any") -> str:
    """Writes the wheel of these files, and answers its name."""
    is_pure, tag = str(platform == "any").lower(), f"py3-none-{platform}"
    said = f"Wheel-Version: 1.0\nGenerator: torusmem\nRoot-Is-Purelib: {is_pure}\nTag: {tag}\n"
    licenses = {f"{INFO}/{it}": license_text(it) for it in LICENSES}
    texts = {**texts, **licenses, f"{INFO}/METADATA": METADATA, f"{INFO}/WHEEL": said}
    if TOOLS:
        texts[f"{INFO}/entry_points.txt"] = f"[console_scripts]\n{SCRIPTS}"
    made = {path: it.encode() if isinstance(it, str) else it for path, it in texts.items()}
    record = ""
    for path, text in made.items():
        digest = base64.urlsafe_b64encode(hashlib.sha256(text).digest()).rstrip(b"=").decode()
        record += f"{path},sha256={digest},{len(text)}\n"
    made[f"{INFO}/RECORD"] = (record + f"{INFO}/RECORD,,\n").encode()
    name = f"{NAME}-{VERSION}-{tag}.whl"
    with zipfile.ZipFile(os.path.join(folder, name), "w") as file:
        for path, text in made.items():
            entry = zipfile.ZipInfo(path, time.gmtime(EPOCH)[:6])
            entry.external_attr = (0o100755 if ".so." in path else 0o100644) << 16
            entry.compress_type = zipfile.ZIP_DEFLATED
            file.writestr(entry, text)
    return name


def build_wheel(folder: str, config_settings: Any = None, metadata_directory: Optional[str] = None) -> str:
    texts: Dict[str, Union[str, bytes]] = {path: read(place) for path, place in files().items()}
    library = (config_settings or {}).get("library")
    if library is None:
        return wheel(folder, texts)
    soname = re.findall(r'(?m)^SONAME = "(.*)"$', read("torusmem/_library.py"))[0]
    with open(library, "rb") as file:
        texts[f"torusmem/{soname}"] = file.read()
    return wheel(folder, texts, "linux_x86_64")


def build_editable(folder: str, config_settings: Any = None, metadata_directory: Optional[str] = None) -> str:
    places = [os.path.realpath(os.path.join(HERE, it)) for it in (".", TOOLS or ".")]
    return wheel(folder, {f"{NAME}.pth": "".join(f"{it}\n" for it in dict.fromkeys(places))})


def build_sdist(folder: str, config_settings: Any = None) -> str:
    base = f"{NAME}-{VERSION}"
    texts = {path: read(place) for path, place in files().items()}
    texts.update({it: read(it) for it in ["pyproject.toml", "backend.py", "README.md"]})
    texts.update({it: license_text(it) for it in LICENSES}, **{"PKG-INFO": METADATA})
    with open(os.path.join(folder, f"{base}.tar.gz"), "wb") as out, gzip.GzipFile("", "wb", 9, out, EPOCH) as packed:
        with tarfile.open(fileobj=packed, mode="w", format=tarfile.GNU_FORMAT) as file:
            for path, text in texts.items():
                entry = tarfile.TarInfo(f"{base}/{path}")
                entry.size, entry.mtime, entry.mode = len(text.encode()), EPOCH, 0o644
                file.addfile(entry, io.BytesIO(text.encode()))
    return f"{base}.tar.gz"
