"""What a package is made of: a folder with the program, the tools and the documents, as a .tar.gz that runs where it is unpacked, and as a .deb."""
import datetime
import gzip
import hashlib
import os
import pathlib
import platform
import re
import shutil
import subprocess
import sys
import tarfile
import textwrap
from typing import Dict, Iterator, Optional, Tuple

from building import engine
from building.record import read_record, sum_of
from kdf9 import about, library, manual
from kdf9.program import ROOT, BadInput

PROGRAM, MODULE, SHARED = pathlib.Path("crates", "kdf9", "out", "kdf9"), engine.MODULE.relative_to(ROOT), engine.SHARED.relative_to(ROOT)
HTML = "kdf9.html"

# The folders and files of the repository that a package has, and the tools that only a clone needs.
FOLDERS, FILES = ("docs", "examples", "courses", "tables", "tools", "web", "install", "editors"), ("kdf9", "README.md", "CHANGELOG.md", "crates.txt")
OF_A_CLONE = ("build", "build-times.txt", "editors", "first", "kit_line", "manual", "shipped", "__pycache__")

# Where the files go that a system looks for in places of its own, and where it has the rest.
OWN, DOCUMENTS = pathlib.Path("usr/lib/kdf9"), pathlib.Path("usr/share/doc/kdf9")
PLACES = {
    "kdf9.bash": "usr/share/bash-completion/completions/kdf9", "kdf9.zsh": "usr/share/zsh/vendor-completions/_kdf9",
    "kdf9.fish": "usr/share/fish/vendor_completions.d/kdf9.fish",
}
LINKS = {
    "usr/bin/kdf9": "../lib/kdf9/kdf9", "usr/share/doc/kdf9/docs": "../../../lib/kdf9/docs", "usr/share/doc/kdf9/examples": "../../../lib/kdf9/examples",
}

MAINTAINER = "Cawhireku maintainers <maintainers@users.noreply.cawhireku.example>"
ABOUT = """ A job has up to four programs in Usercode, their devices, and a schedule.
 The program assembles them, runs them under a Time Sharing Director, and
 writes a report. Every function of it is proved: whatever the schedule, each
 program ends as it would have ended alone.
 .
 Tools come with it, which explain faults, show a program order by order, and
 draw what happened.
"""

# The program stays as it was built, byte for byte, so that its checksum is that of the proved one.
OVERRIDES = "# The program is shipped as it was proved and built, byte for byte.\nkdf9: unstripped-binary-or-object [usr/lib/kdf9/crates/kdf9/out/kdf9]\n"

# A version of the C library that the program asks for.
LIBRARY = re.compile(rb"GLIBC_(\d+)\.(\d+)")


def name() -> str:
    """The name of the folder in the .tar.gz, and of that file."""
    return f"kdf9-{about.version()}-{platform.machine()}"


def seconds() -> int:
    """The time that all files of a package have: that of the commit, or that of the program."""
    told = about.git("log", "-1", "--format=%ct")
    return int(told) if told else int((ROOT / PROGRAM).stat().st_mtime)


def words_of_program() -> str:
    """What is known of the proof of the program, in words, or nothing."""
    record = read_record()
    return record.words("there") if record and record.program == sum_of(ROOT / PROGRAM) else ""


def stage(folder: pathlib.Path) -> bool:
    """Fills a folder with all that runs where it is. Returns whether the page is in it."""
    for each in FOLDERS:
        shutil.copytree(ROOT / each, folder / each, ignore=shutil.ignore_patterns(*OF_A_CLONE))
    for each in FILES:
        shutil.copy(ROOT / each, folder / each)
    (folder / PROGRAM).parent.mkdir(parents=True)
    shutil.copy(ROOT / PROGRAM, folder / PROGRAM)
    lines = {"commit": about.commit(), "machine": platform.machine(), "program": words_of_program()}
    (folder / "packaged").write_text("".join(f"{what} {said}\n" for what, said in lines.items()), encoding="utf-8")
    stage_library(folder)
    has_page = engine.is_current()
    if has_page:
        stage_page(folder)
    settle(folder)
    return has_page


def stage_library(folder: pathlib.Path) -> None:
    """Adds the machine as a library, which the tools need, as one that is current there."""
    (folder / SHARED).parent.mkdir()
    shutil.copyfile(library.made_library(), folder / SHARED)
    keeps = "from building import engine; engine.SUMS.write_text(engine.sums(), encoding='ascii')"
    subprocess.run([sys.executable, "-B", "-c", keeps], cwd=folder / "tools", check=True)


def stage_page(folder: pathlib.Path) -> None:
    """Adds the machine as WebAssembly, and the page."""
    shutil.copyfile(engine.MODULE, folder / MODULE)
    with open(folder / HTML, "wb") as page:
        subprocess.run([folder / "kdf9", "page"], stdin=subprocess.DEVNULL, stdout=page, check=True)


def settle(folder: pathlib.Path) -> None:
    """Gives each file one mode, whatever the umask is here."""
    for path in [folder, *folder.rglob("*")]:
        if not path.is_symlink():
            path.chmod(0o755 if path.is_dir() or os.access(path, os.X_OK) else 0o644)


def write_tar(folder: pathlib.Path, target: pathlib.Path, at: int) -> None:
    """Writes the folder as a .tar.gz, which has the same bytes each time."""

    def plain(entry: tarfile.TarInfo) -> tarfile.TarInfo:
        entry.uid = entry.gid = 0
        entry.uname = entry.gname = "root"
        entry.mtime = at
        return entry

    with open(target, "wb") as file, gzip.GzipFile("", "wb", 9, file, at) as packed, tarfile.open(fileobj=packed, mode="w") as tar:
        for path in sorted([folder, *folder.rglob("*")]):
            tar.add(path, path.relative_to(folder.parent), recursive=False, filter=plain)


def stage_system(staged: pathlib.Path, root: pathlib.Path, at: int) -> None:
    """Fills the root of a system with what is staged: each file in the place where such a system looks for it."""
    shutil.copytree(staged, root / OWN, ignore=lambda here, _: ["install", HTML] if pathlib.Path(here) == staged else [])
    for each, place in PLACES.items():
        (root / place).parent.mkdir(parents=True)
        shutil.copy(staged / "install" / each, root / place)
    (root / DOCUMENTS).mkdir(parents=True)
    for place, target in LINKS.items():
        (root / place).parent.mkdir(parents=True, exist_ok=True)
        (root / place).symlink_to(target)
    write_packed(root / "usr/share/man/man1/kdf9.1.gz", (staged / "install" / "kdf9.1").read_text(encoding="utf-8"))
    write_packed(root / DOCUMENTS / "changelog.gz", changes(at))
    readme = (ROOT / "README.md").read_text(encoding="utf-8")
    (root / DOCUMENTS / "copyright").write_text(f"kdf9: copyright 2026, the Cawhireku maintainers.\n\n{readme.partition('## Licence')[2].strip()}\n", encoding="utf-8")
    overrides = root / "usr/share/lintian/overrides/kdf9"
    overrides.parent.mkdir(parents=True)
    overrides.write_text(OVERRIDES, encoding="utf-8")
    if (staged / HTML).is_file():
        shutil.copy(staged / HTML, root / DOCUMENTS / HTML)


def write_packed(file: pathlib.Path, text: str) -> None:
    """Writes a text packed by gzip, with the same bytes each time."""
    file.parent.mkdir(parents=True, exist_ok=True)
    file.write_bytes(gzip.compress(text.encode("utf-8"), 9, mtime=0))


def changes(at: int) -> str:
    """The newest version of CHANGELOG.md, as Debian writes such a list."""
    entry = re.split(r"^## .*\n", about.CHANGES.read_text(encoding="utf-8"), flags=re.MULTILINE)[1]
    lines = [line.replace("`", "") for line in entry.splitlines() if line.startswith("- ")]
    day = datetime.datetime.fromtimestamp(at, datetime.timezone.utc).strftime("%a, %d %b %Y %H:%M:%S +0000")
    said = "".join(f"{textwrap.fill(line[2:], 76, initial_indent='  * ', subsequent_indent='    ')}\n" for line in lines)
    return f"kdf9 ({about.version()}) unstable; urgency=medium\n\n{said}\n -- {MAINTAINER}  {day}\n"


def control(root: pathlib.Path, kind: str) -> str:
    """What Debian wants to know of a package."""
    size = sum(path.lstat().st_size for path in root.rglob("*") if not path.is_dir()) // 1024
    library = max(tuple(map(int, found)) for found in LIBRARY.findall((ROOT / PROGRAM).read_bytes()))
    fields = {
        "Package": "kdf9", "Version": about.version(), "Architecture": kind, "Maintainer": MAINTAINER, "Installed-Size": str(size),
        "Depends": f"libc6 (>= {library[0]}.{library[1]}), python3:any (>= 3.8)", "Section": "otherosfs", "Priority": "optional",
        "Description": manual.NAME,
    }
    return "".join(f"{what}: {said}\n" for what, said in fields.items()) + ABOUT


def md5sums(root: pathlib.Path) -> str:
    """The checksums of the files, as Debian writes them."""
    files = sorted(path for path in root.rglob("*") if path.is_file() and not path.is_symlink() and path.parent.name != "DEBIAN")
    return "".join(f"{hashlib.md5(path.read_bytes()).hexdigest()}  {path.relative_to(root)}\n" for path in files)


def write_deb(root: pathlib.Path, target: pathlib.Path, kind: str, at: int) -> None:
    """Writes the root of a system as a .deb, which has the same bytes each time."""
    settle(root)
    texts: Dict[str, str] = {"control": control(root, kind), "md5sums": md5sums(root)}
    (root / "DEBIAN").mkdir()
    for each, text in texts.items():
        (root / "DEBIAN" / each).write_text(text, encoding="utf-8")
    settle(root / "DEBIAN")
    for path in [root, *root.rglob("*")]:
        os.utime(path, (at, at), follow_symlinks=False)
    words = ["dpkg-deb", "--root-owner-group", "--build", str(root), str(target)]
    done = subprocess.run(words, env={**os.environ, "SOURCE_DATE_EPOCH": str(at)}, capture_output=True, text=True, check=False)
    if done.returncode:
        raise BadInput(f"dpkg-deb made no package: {' '.join(done.stderr.split())}")


def kind_of_debian() -> Optional[str]:
    """What Debian calls this kind of machine, or None where there is no dpkg-deb."""
    if not shutil.which("dpkg-deb") or not shutil.which("dpkg"):
        return None
    return subprocess.run(["dpkg", "--print-architecture"], capture_output=True, text=True, check=True).stdout.strip()


class Packages:
    """The packages of this program, as they are made in a folder of their own."""

    def __init__(self, work: pathlib.Path) -> None:
        self.work, self.staged, self.at = work, work / name(), seconds()
        self.kind = kind_of_debian()
        self.staged.mkdir()
        self.has_page = stage(self.staged)

    def made(self) -> Iterator[Tuple[str, pathlib.Path]]:
        """Makes one after the other: its name, and where it is."""
        tar, deb, root = (self.work / each for each in ("package.tar.gz", "package.deb", "root"))
        write_tar(self.staged, tar, self.at)
        yield f"{name()}.tar.gz", tar
        if self.kind:
            stage_system(self.staged, root, self.at)
            write_deb(root, deb, self.kind, self.at)
            yield f"kdf9_{about.version()}_{self.kind}.deb", deb
