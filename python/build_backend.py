"""Builds the package for pip, from the standard library alone, so that an installation needs no network.

A wheel for Linux on x86-64 has the program `sdfg` of `release/`, whose bytes have to be those that `release/sources` tells of. Where
there is no such machine or no release, the wheel has none, and the build says how to get one.
"""
from __future__ import annotations

import base64
import hashlib
import io
import platform
import re
import sys
import tarfile
import zipfile
from pathlib import Path
from typing import Any, Mapping, Optional

HERE = Path(__file__).resolve().parent
PACKAGE = "luthkemb"
PROGRAM = f"{PACKAGE}/sdfg"
ANY, MACHINE = "py3-none-any", "py3-none-linux_x86_64"
# A source distribution has the release beside this file; in the repository it stands beside the folder of this file.
RELEASED = ("release/sdfg.xz", "release/sources")
WITHOUT_PROGRAM = (
    "luthkemb: {why}, so this wheel has no program. The repository's ./sdfg makes one, which needs the Rattle kit; "
    "LUTHKEMB_SDFG then names crates/sdfg/out/sdfg"
)
Settings = Optional[Mapping[str, Any]]


def project() -> dict[str, str]:
    """Gives the lines `key = "value"` of pyproject.toml."""
    text = (HERE / "pyproject.toml").read_text(encoding="utf-8")
    return dict(re.findall(r'^([\w-]+) = "(.*)"$', text, re.MULTILINE))


def release() -> str:
    return f"{PACKAGE}-{project()['version']}"


def modules() -> dict[str, bytes]:
    """Gives the files of the package by their places in an installation."""
    files = sorted((HERE / PACKAGE).glob("*.py"))
    return {f"{PACKAGE}/{it.name}": it.read_bytes() for it in files}


def release_file(name: str) -> Optional[Path]:
    """Gives the place of a file of the release, where there is one."""
    return next((it / name for it in (HERE, HERE.parent) if (it / name).is_file()), None)


def program() -> dict[str, bytes]:
    """Gives the released program by its place in an installation, or nothing and says why. Raises where it is another one."""
    packed, sources = (release_file(it) for it in RELEASED)
    machine = f"{platform.system()} {platform.machine()}"
    if machine != "Linux x86_64":
        return said(f"the released program is for Linux x86_64, and this machine is {machine}")
    if packed is None or sources is None:
        return said("there is no released program beside it")
    try:
        import lzma
    except ImportError:
        return said("this Python has no lzma to unpack the released program")
    data = lzma.decompress(packed.read_bytes())
    if hashlib.sha256(data).hexdigest() != sources.read_text(encoding="ascii").splitlines()[1]:
        raise RuntimeError(f"{packed} does not hold the program that {sources} tells of")
    return {PROGRAM: data}


def said(why: str) -> dict[str, bytes]:
    print(WITHOUT_PROGRAM.format(why=why), file=sys.stderr)
    return {}


def metadata() -> str:
    told = project()
    lines = (
        "Metadata-Version: 2.1",
        f"Name: {told['name']}",
        f"Version: {told['version']}",
        f"Summary: {told['description']}",
        f"Requires-Python: {told['requires-python']}",
        "Description-Content-Type: text/markdown",
    )
    return "\n".join([*lines, "", (HERE / told["readme"]).read_text(encoding="utf-8")])


def record(files: Mapping[str, bytes]) -> str:
    """Gives the list of the files of a wheel, with a hash and a size of each."""
    lines = []
    for name, data in files.items():
        digest = base64.urlsafe_b64encode(hashlib.sha256(data).digest()).rstrip(b"=").decode()
        lines.append(f"{name},sha256={digest},{len(data)}")
    return "\n".join([*lines, f"{release()}.dist-info/RECORD,,", ""])


def wheel(folder: str, contents: Mapping[str, bytes]) -> str:
    """Writes a wheel of these files to the folder, and gives its name."""
    info = f"{release()}.dist-info"
    tag = MACHINE if PROGRAM in contents else ANY
    pure = "false" if PROGRAM in contents else "true"
    form = f"Wheel-Version: 1.0\nGenerator: {PACKAGE}\nRoot-Is-Purelib: {pure}\nTag: {tag}\n"
    files = {**contents, f"{info}/METADATA": metadata().encode(), f"{info}/WHEEL": form.encode()}
    name = f"{release()}-{tag}.whl"
    with zipfile.ZipFile(Path(folder) / name, "w", zipfile.ZIP_DEFLATED) as out:
        for place, data in {**files, f"{info}/RECORD": record(files).encode()}.items():
            entry = zipfile.ZipInfo(place, (1980, 1, 1, 0, 0, 0))
            entry.compress_type = zipfile.ZIP_DEFLATED
            entry.external_attr = (0o100755 if place == PROGRAM else 0o100644) << 16
            out.writestr(entry, data)
    return name


def build_wheel(
    wheel_directory: str, config_settings: Settings = None, metadata_directory: Optional[str] = None
) -> str:
    return wheel(wheel_directory, {**modules(), **program()})


def build_editable(
    wheel_directory: str, config_settings: Settings = None, metadata_directory: Optional[str] = None
) -> str:
    return wheel(wheel_directory, {f"{PACKAGE}.pth": f"{HERE}\n".encode()})


def build_sdist(sdist_directory: str, config_settings: Settings = None) -> str:
    """Writes a source distribution, with the release where it is there."""
    name = f"{release()}.tar.gz"
    places = {it: HERE / it for it in ("pyproject.toml", "build_backend.py", "README.md", *modules())}
    places.update({it: file for it in RELEASED if (file := release_file(it)) is not None})
    with tarfile.open(Path(sdist_directory) / name, "w:gz") as out:
        for it, file in places.items():
            out.add(file, f"{release()}/{it}")
        information = tarfile.TarInfo(f"{release()}/PKG-INFO")
        data = metadata().encode()
        information.size = len(data)
        out.addfile(information, io.BytesIO(data))
    return name
