"""Builds the package for pip, from pyproject.toml and with the standard library alone.

So `pip install ./python` needs no network, and writes nothing into the source folder. It is the interface of PEP 517 and
PEP 660.
"""
import base64
import hashlib
import io
import tarfile
import tomllib
import zipfile
from pathlib import Path
from typing import Any

ROOT = Path(__file__).resolve().parent.parent
TAG = "py3-none-any"
# the least time that a ZIP archive can have: equal sources make equal archives
TIME = (1980, 1, 1, 0, 0, 0)

Config = dict[str, Any] | None
Files = dict[str, bytes]


def project() -> dict[str, Any]:
    return dict(tomllib.loads((ROOT / "pyproject.toml").read_text(encoding="utf-8"))["project"])


def stem() -> str:
    return f"{project()['name']}-{project()['version']}"


def metadata() -> Files:
    """The files of the folder .dist-info, but RECORD."""
    told = project()
    lines = [
        "Metadata-Version: 2.1",
        f"Name: {told['name']}",
        f"Version: {told['version']}",
        f"Summary: {told['description']}",
        f"Requires-Python: {told['requires-python']}",
    ]
    for extra, needed in told.get("optional-dependencies", {}).items():
        lines.append(f"Provides-Extra: {extra}")
        lines += [f"Requires-Dist: {it}; extra == '{extra}'" for it in needed]
    scripts = [f"{name} = {place}" for name, place in told.get("scripts", {}).items()]
    return {
        f"{stem()}.dist-info/METADATA": ("\n".join(lines) + "\n").encode(),
        f"{stem()}.dist-info/WHEEL": f"Wheel-Version: 1.0\nGenerator: spanbase_build\n"
        f"Root-Is-Purelib: true\nTag: {TAG}\n".encode(),
        f"{stem()}.dist-info/entry_points.txt": ("\n".join(["[console_scripts]", *scripts]) + "\n").encode(),
    }


def sources() -> Files:
    """The files of the package."""
    package = ROOT / "spanbase"
    found = sorted([*package.rglob("*.py"), package / "py.typed"])
    return {path.relative_to(ROOT).as_posix(): path.read_bytes() for path in found}


def write_wheel(folder: str, files: Files) -> str:
    record = f"{stem()}.dist-info/RECORD"
    lines = []
    for name, content in files.items():
        digest = base64.urlsafe_b64encode(hashlib.sha256(content).digest()).rstrip(b"=").decode()
        lines.append(f"{name},sha256={digest},{len(content)}")
    files = {**files, record: ("\n".join([*lines, f"{record},,"]) + "\n").encode()}
    wheel = f"{stem()}-{TAG}.whl"
    with zipfile.ZipFile(Path(folder) / wheel, "w", zipfile.ZIP_DEFLATED) as archive:
        for name, content in files.items():
            entry = zipfile.ZipInfo(name, TIME)
            entry.external_attr = 0o100644 << 16
            archive.writestr(entry, content, zipfile.ZIP_DEFLATED)
    return wheel


def build_wheel(wheel_directory: str, config_settings: Config = None, metadata_directory: str | None = None) -> str:
    return write_wheel(wheel_directory, {**sources(), **metadata()})


def build_editable(wheel_directory: str, config_settings: Config = None, metadata_directory: str | None = None) -> str:
    path = {f"{project()['name']}.pth": f"{ROOT}\n".encode()}
    return write_wheel(wheel_directory, {**path, **metadata()})


def build_sdist(sdist_directory: str, config_settings: Config = None) -> str:
    name = f"{stem()}.tar.gz"
    own = {it: (ROOT / it).read_bytes() for it in ("pyproject.toml", "backend/spanbase_build.py")}
    information = {"PKG-INFO": metadata()[f"{stem()}.dist-info/METADATA"]}
    with tarfile.open(Path(sdist_directory) / name, "w:gz", format=tarfile.PAX_FORMAT) as archive:
        for path, content in {**own, **information, **sources()}.items():
            entry = tarfile.TarInfo(f"{stem()}/{path}")
            entry.size = len(content)
            archive.addfile(entry, io.BytesIO(content))
    return name
