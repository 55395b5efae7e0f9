"""Makes the packages of the program at hand, and tries them where there is neither a repository nor rt: the .tar.gz in a folder of its own, and the .deb in a
root in which only it and the system's own commands are.
"""
import hashlib
import os
import pathlib
import re
import shutil
import subprocess
import sys
import tarfile
import tempfile
import urllib.request
from typing import Iterator, List, Optional, Tuple

from launcher import COMMANDS
from toolkit import ENVIRONMENT, ROOT, Run, example_report

Cases = Iterator[Tuple[str, Optional[str]]]

FIRST = "adds-5-and-7"

# What a user finds in the places of a system.
INSTALLED = (
    "usr/bin/kdf9", "usr/share/man/man1/kdf9.1.gz", "usr/share/bash-completion/completions/kdf9", "usr/share/zsh/vendor-completions/_kdf9",
    "usr/share/fish/vendor_completions.d/kdf9.fish", "usr/share/doc/kdf9/copyright", "usr/share/doc/kdf9/docs/TOUR.md", f"usr/share/doc/kdf9/examples/{FIRST}.job",
)

# The system's own Python, which a package uses.
PYTHON = "/usr/bin/python3"

# The release of Debian whose smallest root the .deb is installed in, and the mirror, which has to answer within so many seconds.
RELEASE, MIRROR, PATIENCE = "bookworm", "http://deb.debian.org/debian", 20

# What a package of another kind of machine says.
FOREIGN = re.compile(r"kdf9: this package is for vax, and this machine is \w+: .*\n")

# What a tool says where there is neither the library nor rt.
WITHOUT_LIBRARY = "kdf9: facts need the library: the machine for other programs isn't made yet, and there is no rt on this machine to make it with\n"

# Makes a root of what a package has in it and of the system's own commands, and runs a script in that. The system's programs are in /bin, so /usr is the package's own.
ENTER = """
set -e
cd "$1"
mkdir -p bin lib lib64 dev tmp "$1/$2"
[ -e usr/bin/env ] || ln -s /bin/env usr/bin/env
mount --bind /usr/bin bin
mount --bind /usr/lib lib
[ ! -d /usr/lib64 ] || mount --bind /usr/lib64 lib64
[ "$2" = /usr/lib ] || mount --bind "$2" "$1/$2"
mount --rbind /dev dev
exec env -i PATH=/usr/bin:/bin HOME=/none "$(PATH=$PATH:/usr/sbin command -v chroot)" . bash -c "$3"
"""


def run(words: List[str], folder: pathlib.Path, text: bytes = b"", **variables: str) -> Run:
    """A run of a program in a folder, over this text."""
    done = subprocess.run(words, cwd=folder, env={**ENVIRONMENT, **variables}, input=text, capture_output=True, check=False)
    return Run(done.returncode, done.stdout.decode("utf-8"), done.stderr.decode("utf-8"))


def commands(folder: pathlib.Path) -> str:
    """A folder with the commands that ./kdf9 may use, and with no rt and no dpkg-deb; the search path that it is."""
    folder.mkdir()
    for name in COMMANDS:
        (folder / name).symlink_to(shutil.which(name))
    (folder / "python3").symlink_to(sys.executable)
    return str(folder)


def packages_are_made() -> Cases:
    with tempfile.TemporaryDirectory() as folder:
        work = pathlib.Path(folder)
        path = commands(work / "commands")
        runs = [run([str(ROOT / "kdf9"), "package", each], work) for each in ("one", "two/three")]
        made = [sorted((work / each).iterdir()) for each in ("one", "two/three")]
        yield "the packages", None if all(it.status == 0 for it in runs) and len(made[0]) >= 1 else f"{runs}"
        yield "the packages once more", None if [it.read_bytes() for it in made[0]] == [it.read_bytes() for it in made[1]] else "are other bytes"
        yield from faults_of_package(work, path)
        tar = next(it for it in made[0] if it.name.endswith(".tar.gz"))
        yield from unpacked_runs(work, tar, path)
        debs = [it for it in made[0] if it.name.endswith(".deb")]
        if debs:
            yield from installed_runs(work, debs[0])
            yield from clean_root_runs(work, debs[0])
            yield from lintian_finds_nothing(debs[0])
        else:
            print("install: dpkg-deb isn't on this machine, so no .deb is made and tried")


def faults_of_package(work: pathlib.Path, path: str) -> Cases:
    """Where a package can't be made, one line says why; where there is no dpkg-deb, one says that there is no .deb."""
    (work / "file").write_text("", encoding="ascii")
    made = run([str(ROOT / "kdf9"), "package", "file/x"], work)
    yield "a package below a file", None if (made.status, made.out, made.err) == (1, "", "file/x: Not a directory\n") else f"{made}"
    made = run([str(ROOT / "kdf9"), "package", "plain"], work, PATH=path)
    good = made.status == 0 and made.err.endswith("kdf9: there is no .deb, since dpkg-deb isn't on this machine\n") and len(list((work / "plain").iterdir())) == 1
    yield "a package without dpkg-deb", None if good else f"{made}"


def unpacked_runs(work: pathlib.Path, tar: pathlib.Path, path: str) -> Cases:
    """The .tar.gz runs where it is unpacked, with only the commands that it may use."""
    with tarfile.open(tar) as packed:
        packed.extractall(work / "my folder")
    own, = (work / "my folder").iterdir()
    yield "the folder of the .tar.gz", None if f"{own.name}.tar.gz" == tar.name else own.name
    job = (ROOT / "examples" / f"{FIRST}.job").read_bytes()
    started = run(["./kdf9", "run"], own, job, PATH=path)
    yield "the first job where it is unpacked", None if started == Run(0, example_report(FIRST), "") else f"{started}"
    cases = {
        "explain examples/adds-to-nothing.job": (0, "", "(docs/MACHINE.md)"), "explain --help": (0, "kdf9 explain JOB", ""),
        f"listing examples/{FIRST}.job": (0, "(to the main part)", ""), f"steps examples/{FIRST}.job 0 2 3 --run": (0, "SET", ""), "--help": (0, "  kdf9 run < JOB", ""),
        "--version": (0, "program: from a package", ""), "clean": (1, "", "this comes from a package"), "package": (1, "", "this comes from a package itself"),
        "run x.job": (1, "USAGE", "kdf9 run < x.job"), "listing": (2, "", "usage: kdf9 listing JOB"), "walk --help": (2, "", "kdf9 --help lists them"),
    }
    for words, (status, out, err) in cases.items():
        told = run(["./kdf9", *words.split()], own, PATH=path)
        good = told.status == status and out in told.out and err in told.err and "./kdf9" not in told.out + told.err
        yield f"{words} where it is unpacked", None if good else f"{told}"
    (own / "crates/kdf9/out/engine/libkdf9.so").rename(work / "libkdf9.so")
    told = run(["./kdf9", "listing", f"examples/{FIRST}.job"], own, PATH=path, KDF9_LIBRARY="")
    yield "listing without the library", None if told == Run(1, "", WITHOUT_LIBRARY) else f"{told}"
    told = run(["./kdf9", "explain", "examples/adds-to-nothing.job"], own, PATH=path, KDF9_LIBRARY="")
    alone = WITHOUT_LIBRARY.replace("\n", "; so this is the answer of the program alone\n")
    yield "explain without the library", None if told.status == 1 and told.out.startswith("KDF9 REPORT 1\n") and told.err == alone else f"{told}"
    page = run(["./kdf9", "page"], own, PATH=path)
    has_page = (own / "kdf9.html").is_file()
    good = page.out == (own / "kdf9.html").read_text(encoding="utf-8") if has_page else page.status == 1 and page.err.count("\n") == 1
    yield "the page where it is unpacked", None if good else f"{page.status} {page.err}"
    yield "what was written there", None if not list(own.rglob("__pycache__")) else "Python wrote there"
    told = (own / "packaged").read_text(encoding="utf-8")
    (own / "packaged").write_text(re.sub(r"^machine .*$", "machine vax", told, flags=re.MULTILINE), encoding="utf-8")
    for words in (["run"], ["explain", "x"], ["--version"]):
        foreign = run(["./kdf9", *words], own, job, PATH=path)
        yield f"{words[0]} on another machine", None if foreign.status == 1 and not foreign.out and FOREIGN.fullmatch(foreign.err) else f"{foreign}"


def installed_runs(work: pathlib.Path, deb: pathlib.Path) -> Cases:
    """The .deb has what a system wants of it, and runs in a root in which only it and the system's commands are."""
    root = work / "root"
    subprocess.run(["dpkg-deb", "-x", str(deb), str(root)], check=True)
    subprocess.run(["dpkg-deb", "-e", str(deb), str(work / "control")], check=True)
    missing = [it for it in INSTALLED if not (root / it).exists() and not (root / it).is_symlink()]
    yield "what the .deb installs", f"without {missing}" if missing else None
    sums = dict(reversed(line.split("  ", 1)) for line in (work / "control/md5sums").read_text(encoding="utf-8").splitlines())
    there = {str(it.relative_to(root)): hashlib.md5(it.read_bytes()).hexdigest() for it in root.rglob("*") if it.is_file() and not linked(it, root)}
    yield "the checksums of the .deb", None if sums == there else f"{sums.keys() ^ there.keys()}"
    program = (ROOT / "crates/kdf9/out/kdf9").read_bytes()
    yield "the program of the .deb", None if (root / "usr/lib/kdf9/crates/kdf9/out/kdf9").read_bytes() == program else "isn't the one that was built"
    if run(["unshare", "-r", "-m", "true"], work).status:
        print("install: this machine makes no namespaces, so the .deb isn't run in a root of its own")
        return
    examples = "/usr/share/doc/kdf9/examples"
    scripts = {f"kdf9 run < {examples}/{FIRST}.job": example_report(FIRST), f"command -v rt; [ -e {ROOT} ] || echo none": "none\n"}
    if pathlib.Path(PYTHON).exists():
        scripts.update({f"kdf9 explain {examples}/{FIRST}.job": example_report(FIRST), "kdf9 --version | head -1": f"kdf9 {version(deb)}\n"})
        modules = run([PYTHON, "-c", "import sysconfig; print(sysconfig.get_path('stdlib'), end='')"], work).out
    else:
        print(f"install: there is no {PYTHON}, so no tool of the .deb is run")
        modules = "/usr/lib"
    for script, due in scripts.items():
        done = run(["unshare", "-r", "-m", "bash", "-c", ENTER, "enter", str(root), modules, script], work)
        yield f"{script} where the .deb is installed", None if done == Run(0, due, "") else f"{done}"


def clean_root_lacks() -> Optional[str]:
    """Why no smallest root of Debian can be made here, or None."""
    if os.geteuid() != 0:
        return "only root may make one"
    if not shutil.which("debootstrap", path=f"{os.environ['PATH']}:/usr/sbin"):
        return "debootstrap isn't on this machine"
    try:
        with urllib.request.urlopen(f"{MIRROR}/dists/{RELEASE}/Release", timeout=PATIENCE):
            return None
    except OSError as why:
        return f"{MIRROR} doesn't answer: {why}"


def clean_root_runs(work: pathlib.Path, deb: pathlib.Path) -> Cases:
    """The .deb is installed by dpkg in the smallest root of Debian, with the Python that it asks for; there it runs, and it goes without leaving anything."""
    root = work / "smallest-root"
    lacks, words = clean_root_lacks(), ["timeout", "1200", "debootstrap", "--variant=minbase", "--include=python3", RELEASE, str(root), MIRROR]
    path = f"{os.environ['PATH']}:/usr/sbin:/sbin"
    made = None if lacks else run(words, work, PATH=path)
    if made and made.status:
        lacks = f"debootstrap ended with: {(made.err or made.out).strip().splitlines()[-1:]}"
    if lacks:
        print(f"install: the .deb isn't installed in the smallest root of Debian: {lacks}")
        return
    shutil.copy(deb, root / "kdf9.deb")
    examples = "/usr/share/doc/kdf9/examples"
    scripts = {
        "command -v rt; dpkg -i /kdf9.deb > /dev/null && dpkg -s kdf9 | sed -n 's/^Status: //p'": "install ok installed\n",
        f"kdf9 run < {examples}/{FIRST}.job": example_report(FIRST), f"kdf9 explain {examples}/{FIRST}.job": example_report(FIRST), "kdf9 --version | head -1": f"kdf9 {version(deb)}\n",
        "dpkg -r kdf9 > /dev/null && command -v kdf9; ls -d /usr/lib/kdf9 /usr/share/doc/kdf9 2> /dev/null": "",
    }
    for script, due in scripts.items():
        enter = ["chroot", str(root), "/usr/bin/env", "-i", "PATH=/usr/sbin:/usr/bin:/sbin:/bin", "HOME=/root", "DEBIAN_FRONTEND=noninteractive", "bash", "-c", script]
        done = run(enter, work, PATH=path)
        yield f"{script} in the smallest root of Debian", None if (done.out, done.err) == (due, "") else f"{done}"


def linked(path: pathlib.Path, root: pathlib.Path) -> bool:
    """Whether a file is one by way of a symbolic link."""
    return any(it.is_symlink() for it in [path, *path.parents] if it != root and root in it.parents)


def version(deb: pathlib.Path) -> str:
    """The version in the name of a .deb."""
    return deb.name.split("_")[1]


def lintian_finds_nothing(deb: pathlib.Path) -> Cases:
    """Debian's own check of packages has no error and no warning."""
    if not shutil.which("lintian"):
        print("install: lintian isn't on this machine, so the .deb isn't checked by it")
        return
    done = run(["lintian", str(deb)], deb.parent)
    found = re.findall(r"^[EW]: .*$", done.out, re.MULTILINE)
    yield "lintian over the .deb", None if done.status == 0 and not found else f"{done}"
