"""Tries the first start of ./kdf9: something else answers while a stand-in for rt builds the program in the background, and nothing is said to be proved that isn't."""
import base64
import fcntl
import gzip
import hashlib
import os
import pathlib
import subprocess
import sys
import tempfile
import time
from typing import Iterator, Optional, Tuple

from launcher import BUILDING, LIST, MAIN, NEST, PROGRAM, QSTORE, Checkout, differs, ended
from toolkit import ENVIRONMENT, ROOT, Run, example_report

Cases = Iterator[Tuple[str, Optional[str]]]
Started = Tuple[int, str, str]

# What a start says: how far the build is, and what answers.
BEHIND, OF_PAGE, OF_KIT = f"kdf9: in the background: {BUILDING[6:]}", "this answer is that of the page's module in dist/", "this answer is that of `rt try`"

# A node that shows what it is asked: the module, the words and the text.
NODE = """#!{python}
import pathlib, sys
folder, *words = sys.argv[3:]
print(end="<module " + pathlib.Path(folder, "kdf9.wasm").read_text() + ">" + "".join("<" + it + ">" for it in words) + sys.stdin.read())
sys.exit(3)
"""

# Starts ./kdf9 of a folder in which nothing can be written any more.
READ_ONLY = """
set -e
mount --bind "$1" "$1"
mount -o remount,ro,bind "$1"
folder=$1
shift
exec bash "$folder/kdf9" "$@"
"""

# So many tenths of a second a build in the background is waited for.
PATIENCE = 1200


class Fresh(Checkout):
    """A clone in which nothing is built. Its starts wait for no proof."""

    def __init__(self, folder: str) -> None:
        super().__init__(folder)
        self.write("crates.txt", f"{LIST}kdf_engine: kdf_nest\n")
        self.write("crates/kdf_engine/src/lib.rt", "\n")

    def go(self, *words: str, text: str = "", **variables: str) -> Started:
        """What a start by these words over this text wrote, and its status."""
        return ended(self.begin(*words, stdin=subprocess.PIPE, variables={"KDF9_PROVED": "", **variables}), text)

    def has_page(self) -> None:
        """Gives it a node, and a page with its checksums."""
        self.write("commands/node", NODE.format(python=sys.executable))
        (self.folder / "commands/node").chmod(0o755)
        packed = base64.b64encode(gzip.compress(b"of the page")).decode("ascii")
        self.write("dist/kdf9.html", f'<script type="text/plain" id="module">{packed}</script>')
        for name in ("machine", "narrow"):
            self.write(f"web/{name}.js", "")
        sums = "from building import engine; print(engine.sums())"
        sources = subprocess.run([sys.executable, "-c", sums], cwd=self.folder / "tools", capture_output=True, text=True, check=True).stdout
        page = hashlib.sha256((self.folder / "dist/kdf9.html").read_bytes()).hexdigest()
        self.write("dist/kdf9.sums", f"page {page}\nsources {sources}")

    def waits_until(self, is_so: bool) -> bool:
        """Whether a build is going on, or is none, after some patience."""
        for _ in range(PATIENCE):
            if self.is_building() == is_so:
                return True
            time.sleep(0.1)
        return False

    def begun(self, crate: str) -> int:
        """How often builds have begun a crate; the first may need some patience."""
        for _ in range(PATIENCE):
            if f"begins {crate}" in self.log():
                break
            time.sleep(0.1)
        return self.log().count(f"begins {crate}")

    def is_building(self) -> bool:
        """Whether a build has the folder of all crates for itself."""
        folder = os.open(self.folder / "crates", os.O_RDONLY)
        try:
            fcntl.flock(folder, fcntl.LOCK_EX | fcntl.LOCK_NB)
            return False
        except BlockingIOError:
            return True
        finally:
            os.close(folder)


def kit_answers(fresh: Fresh) -> Cases:
    """Without node the kit answers, at the next start too, until the program is built; then that answers, and says nothing more."""
    fresh.write(QSTORE, "endless\n")
    yield "a first start", differs(fresh.go("run", text="job\n"), 42, "<tried><first><run>job\n", BEHIND, OF_KIT)
    yield "a second start", differs(fresh.go("make", "7"), 42, "<tried><first><make><7>", "kdf9: in the background: ", OF_KIT)
    yield "their builds", None if fresh.begun("kdf_word") == 1 else f"{fresh.log()}"
    yield "--version meanwhile", None if "program: not built yet; a build of it is going on\n" in fresh.go("--version")[1] else "says something else"
    log = (fresh.folder / "crates/kdf9/out/build.log").read_text().splitlines()
    subprocess.run(["bash", "-c", log[0].partition(": ")[2]], check=True)
    yield "the build as its log says how to stop it", None if fresh.waits_until(False) and not (fresh.folder / PROGRAM).exists() else f"{log}"


def program_follows(fresh: Fresh) -> Cases:
    """When the build has ended in the background, the program answers, and was proved on this machine."""
    first = fresh.go("run", text="job")
    yield "a start before the end", differs(first, 42, "<tried><first><run>job", "kdf9: ", OF_KIT)
    good = fresh.waits_until(False) and (fresh.folder / PROGRAM).exists()
    yield "the build in the background", None if good else (fresh.folder / "crates/kdf9/out/build.log").read_text()
    yield "a start after it", differs(fresh.go("run", text="job"), 42, "<first><run>job")
    yield "--version after it", None if "program: proved and built on this machine" in fresh.go("--version")[1] else "isn't proved"


def page_answers(fresh: Fresh) -> Cases:
    """With node and the page's checksums the module of the page answers; where they don't fit, the kit does."""
    fresh.has_page()
    fresh.write(QSTORE, "endless\n")
    fresh.write("crates/kdf_engine/src/lib.rt", "changed\n")
    yield "the page of other sources", differs(fresh.go("run", text="job"), 42, "<tried><first><run>job", BEHIND, OF_KIT)
    fresh.has_page()
    yield "the page", differs(fresh.go("run", text="job"), 3, "<module of the page><run>job", "kdf9: in the background: ", OF_PAGE)
    yield "make, which reads nothing", differs(fresh.go("make", "7", text="job"), 3, "<module of the page><make><7>", "kdf9: ", OF_PAGE)
    yield "a word of two lines", differs(fresh.go("walk", "a\nb"), 42, "<tried><first><walk><a\nb>", "kdf9: walk is no command and no tool", "kdf9: ", OF_KIT)
    page = fresh.folder / "dist/kdf9.html"
    page.write_text(f"{page.read_text()} ")
    yield "a page that was changed", differs(fresh.go("run", text="job"), 42, "<tried><first><run>job", "kdf9: ", OF_KIT)


def page_answers_without_rt(fresh: Fresh) -> Cases:
    """Where there is no rt, nothing is built; the page answers, and where it can't, one line says so."""
    fresh.has_page()
    fresh.without("rt")
    yield "the page without rt", differs(fresh.go("run", text="job"), 3, "<module of the page><run>job", OF_PAGE)
    fresh.without("node")
    yield "neither rt nor node", differs(fresh.go("run"), 1, "", "nothing else answers before the program is proved: there is no node", "isn't built, and there is no rt")


def waits_where_asked(fresh: Fresh) -> Cases:
    """--proved waits for the program, and by itself says which it is; so does a start for which nothing else answers, with what was handed in."""
    fresh.write(MAIN, "silent\n")
    run = fresh.go("run", text="job")
    said = "nothing else answers before the program is proved: there is no node to run the module of dist/kdf9.html; no answer came of `rt try`\n"
    yield "nothing that answers", None if run[:2] == (42, "<silent><run>job") and said in run[2] else f"{run}"
    yield "the builds by then", None if fresh.builds() == 1 else f"{fresh.log()}"
    fresh.write(NEST, "kdf_word\n")
    run = fresh.go("--proved", "run", text="job")
    yield "--proved with a command", None if run[:2] == (42, "<silent><run>job") and BUILDING in run[2] and OF_KIT not in run[2] else f"{run}"
    run = fresh.go("--proved")
    yield "--proved alone", None if run[0] == 0 and "program: proved and built on this machine" in run[1] else f"{run}"


def faults_are_said(fresh: Fresh) -> Cases:
    """A build that can't begin, or that fails in the background, is told with the answer, each in one line; what failed is tried again."""
    yield "no disk", differs(fresh.go("run", text="job", KDF9_DISK="90000000"), 42, "<tried><first><run>job", "the build wants about 9e+07 GB of disk", OF_KIT)
    fresh.write(NEST, "faulty\n")
    fresh.go("run")
    good = fresh.waits_until(False)
    run = fresh.go("run", text="job")
    due = (42, "<tried><first><run>job", "the last build in the background came to: kdf_nest isn't proved", "kdf9: ", OF_KIT)
    yield "a proof that fails", differs(run, *due) if good else "goes on"
    fresh.waits_until(False)
    (fresh.folder / "crates/kdf9").rename(fresh.folder / "kept")
    (fresh.folder / "crates/kdf9").write_text("")
    run = fresh.go("make", "7")
    yield "crates that can't be written", None if run[0] and "can't be written, so nothing is proved here" in run[2] and "Traceback" not in run[2] else f"{run}"


def streams_fail(fresh: Fresh) -> Cases:
    """Where input or output is closed, the statuses are those of the program."""
    fresh.has_page()
    fresh.without("rt")
    for stream, status in (("<&-", 5), ("< /", 5), ("< /dev/null > /dev/full", 6), ("< /dev/null >&-", 6)):
        words = ["bash", "-c", f"{fresh.folder}/commands/bash kdf9 run {stream}"]
        done = subprocess.run(words, cwd=fresh.folder, env={"PATH": str(fresh.folder / "commands")}, capture_output=True, text=True, check=False)
        good = done.returncode == status and not done.stdout and "slip" not in done.stderr and "Traceback" not in done.stderr
        yield f"run {stream}", None if good else f"{done}"


def read_only_folders(fresh: Fresh) -> Cases:
    """In a folder where nothing can be written, something answers all the same; a line says that nothing is proved there, and --proved ends with one."""
    words = ["unshare", "-r", "-m", "bash", "-c", READ_ONLY, "enter", str(fresh.folder)]
    if subprocess.run(["unshare", "-r", "-m", "true"], capture_output=True, check=False).returncode:
        print("install: this machine makes no namespaces, so no folder is tried in which nothing can be written")
        return
    variables = {"PATH": f"{fresh.folder}/commands:{os.environ['PATH']}", "KDF9_JOBS": "2", "KDF9_DISK": "0"}
    for more, status, out, said in ((["make", "7"], 42, "<tried><first><make><7>", ("can't be written, so nothing is proved here", OF_KIT)), (["--proved", "make", "7"], 1, "", ("could not be built: ",))):
        done = subprocess.run([*words, *more], env=variables, stdin=subprocess.DEVNULL, capture_output=True, text=True, check=False)
        lines = [line for line in done.stderr.splitlines() if BUILDING not in line]
        good = (done.returncode, done.stdout) == (status, out) and len(lines) == len(said) and all(part in line for part, line in zip(said, lines))
        yield " ".join(more), None if good else f"{done}"


def surroundings_lack_something() -> Cases:
    """Without HOME, without a terminal, and with no place for files of a moment, the program and a tool do what they do."""
    job = (ROOT / "examples/adds-5-and-7.job").read_bytes()
    due = Run(0, example_report("adds-5-and-7"), "")
    for what, without in (("HOME", {"HOME"}), ("TERM and LANG", {"TERM", "LANG", "LC_ALL"}), ("any variable but PATH", set(ENVIRONMENT) - {"PATH", "KDF9_PROVED"})):
        env = {name: value for name, value in ENVIRONMENT.items() if name not in without}
        for words in (["run"], ["explain", "-"]):
            done = subprocess.run([ROOT / "kdf9", *words], env=env, cwd="/", input=job, start_new_session=True, capture_output=True, check=False)
            run = Run(done.returncode, done.stdout.decode("utf-8"), done.stderr.decode("utf-8"))
            yield f"{words[0]} without {what}", None if run == due else f"{run}"


def shipped_module_answers() -> Cases:
    """The module of the page that is shipped answers as the program, where node is there; its checksums are those of dist/kdf9.sums."""
    done = subprocess.run(["tools/shipped"], cwd=ROOT, env=ENVIRONMENT, capture_output=True, text=True, check=False)
    yield "the checksums of the page that is shipped", None if (done.returncode, done.stdout, done.stderr) == (0, "", "") else f"{done}"
    script = "import sys; from building.first import *; print(page_lacks([])); a = answer_of_page(['run'], sys.stdin.buffer.read()); print(a.status, a.text.decode(), end='')"
    job = (ROOT / "examples/adds-5-and-7.job").read_bytes()
    done = subprocess.run([sys.executable, "-c", script], cwd=ROOT / "tools", input=job, capture_output=True, check=False)
    run = Run(done.returncode, done.stdout.decode("utf-8"), done.stderr.decode("utf-8"))
    if run.out.startswith("there is no node"):
        print("install: node isn't on this machine, so the module of the page isn't run")
    else:
        yield "the module of the page", None if run == Run(0, f"None\n0 {example_report('adds-5-and-7')}", "") else f"{run}"


def first_starts() -> Cases:
    """Each case in a clone of its own. Builds that are still going on are stopped."""
    for case in (kit_answers, program_follows, page_answers, page_answers_without_rt, waits_where_asked, faults_are_said, read_only_folders, streams_fail):
        with tempfile.TemporaryDirectory() as folder:
            fresh = Fresh(folder)
            yield from ((f"{case.__name__.replace('_', ' ')}: {what}", why) for what, why in case(fresh))
            stop(fresh)


def stop(fresh: Fresh) -> None:
    """Ends the build in the background of a clone: each process of it has the clone's folder in what it was started by."""
    for entry in pathlib.Path("/proc").iterdir():
        try:
            words = (entry / "cmdline").read_bytes()
            if entry.name.isdigit() and f"{fresh.folder}/tools/build".encode() in words:
                os.kill(int(entry.name), 15)
        except OSError:
            continue
    fresh.waits_until(False)


SUITES = (first_starts, shipped_module_answers, surroundings_lack_something)
