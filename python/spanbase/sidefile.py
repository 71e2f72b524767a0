"""The file beside an image, which describes what the image doesn't keep: queries and versions.

It is a small JSON file. An image that is saved and its side file can't be replaced in one step. So the side file describes
the new image and the one that it replaces, each with a digest, and is written first: whichever image is there after a crash,
its queries and versions are known.
"""
import contextlib
import hashlib
import json
import os
from collections.abc import Mapping
from dataclasses import asdict, dataclass
from typing import Any

from spanbase.errors import SideFileError

__all__ = ["SUFFIX", "Kept", "Tree", "read", "write"]

SUFFIX = b".queries"
FORMAT = 1
PIECE = 1 << 20

# a query: {"formula": text}, {"union": [left, right]}, {"join": [left, right]} or {"project": [source, variables]}
Tree = Mapping[str, Any]


@dataclass(frozen=True)
class Kept:
    """What belongs to an image: the queries by name; for each version the names of its documents, each with the document of
    the image that has its text; and the documents whose text is that of such a document."""

    queries: dict[str, Tree]
    versions: dict[str, dict[str, str]]
    documents: dict[str, str]


def read(image: bytes) -> Kept | None:
    """What belongs to an image, or None where there is no side file."""
    path = image + SUFFIX
    if not os.path.lexists(path):
        return None
    described = images_of(path)
    own = [it for it in described if it["size"] == os.stat(image).st_size]
    found = digest(image) if own else None
    for it in own:
        if it["digest"] == found:
            try:
                return Kept(dict(it["queries"]), dict(it["versions"]), dict(it["documents"]))
            except (KeyError, TypeError, ValueError):
                break
    else:
        raise SideFileError(
            f"{os.fsdecode(path)} doesn't describe the present {os.path.basename(os.fsdecode(image))}; "
            "with side_file=False its documents are opened alone"
        )
    raise SideFileError(f"{os.fsdecode(path)} is damaged")


def write(image: bytes, new: bytes, kept: Kept) -> None:
    """Describes the file `new` and the image that it is about to replace."""
    path = image + SUFFIX
    if not (kept.queries or kept.versions or os.path.lexists(path)):
        return
    described = [{"digest": digest(new), "size": os.stat(new).st_size, **asdict(kept)}]
    with contextlib.suppress(FileNotFoundError, SideFileError):
        size = os.stat(image).st_size
        described += [it for it in images_of(path) if it["size"] == size and it["digest"] != described[0]["digest"]][:2]
    temporary = path + b".%d.new" % os.getpid()
    try:
        with open(temporary, "x", encoding="ascii") as file:
            json.dump({"format": FORMAT, "images": described}, file, indent=1)
            file.write("\n")
            file.flush()
            os.fsync(file.fileno())
        os.replace(temporary, path)
    finally:
        with contextlib.suppress(FileNotFoundError):
            os.unlink(temporary)


def images_of(path: bytes) -> list[dict[str, Any]]:
    """The images that a side file describes."""
    with open(path, "rb") as file:
        try:
            content = json.load(file)
            described = [it for it in content["images"] if isinstance(it["size"], int) and isinstance(it["digest"], str)]
            known = content["format"]
        except (ValueError, KeyError, TypeError):
            raise SideFileError(f"{os.fsdecode(path)} is damaged") from None
    if known != FORMAT:
        raise SideFileError(f"{os.fsdecode(path)} has the format {known}, and this package reads {FORMAT}")
    return described


def digest(path: bytes) -> str:
    """The digest of a file."""
    found = hashlib.blake2b(digest_size=32)
    with open(path, "rb") as file:
        while piece := file.read(PIECE):
            found.update(piece)
    return found.hexdigest()
