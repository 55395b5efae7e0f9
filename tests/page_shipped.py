"""Compares the page that the repository has with the one that is made here."""
import base64
import gzip
import pathlib
import re
from typing import Iterator, Optional, Tuple

from toolkit import ROOT

DIST = ROOT / "dist"

# A part of the page that is compressed.
PACKED = re.compile(r'(<script type="text/plain" id="\w+">)([A-Za-z0-9+/=]+)(?=</script>)')


def unpacked(file: pathlib.Path) -> str:
    """The page with its parts unpacked, since another version of the compressor may pack the same in other bytes."""
    return PACKED.sub(lambda part: part[1] + gzip.decompress(base64.b64decode(part[2])).hex(), file.read_text(encoding="utf-8"))


def shipped_page_is_current(file: pathlib.Path, name: str = "kdf9.html") -> Iterator[Tuple[str, Optional[str]]]:
    """Whether the page of this name in dist/ has what the page in this file has."""
    shipped = DIST / name
    if not shipped.is_file():
        yield f"dist/{name}", "is missing; tools/shipped --write makes it"
    else:
        yield f"dist/{name}", None if unpacked(shipped) == unpacked(file) else "isn't the page that is made here; tools/shipped --write makes it"
