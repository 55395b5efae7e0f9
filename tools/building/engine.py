"""The machine for other programs: as a native library, and as WebAssembly. Both are made from the crate `kdf_engine`.

The kit's own way to make WebAssembly accepts nothing that reaches the heap. So the crate is proved over the built libraries and lowered for x86-64, with a toolchain
that keeps the LLVM bitcode. The kit's own clang and linker then make WebAssembly of that. The native library is what the kit itself compiles, with the kit's heap.
"""
import contextlib
import fcntl
import hashlib
import os
import pathlib
import re
import shutil
import subprocess
import sys
import tempfile

from building.progress import Stages, say
from building.rooms import CRATES, PROGRAM, ROOT, crates_below, files_of, read_crates, read_list, stamp_of

CRATE = "kdf_engine"
OUT = CRATES / "kdf9" / "out" / "engine"
SUMS, LOG = OUT / "engine.sums", OUT / "engine.log"

# What is made: WebAssembly, what the kit compiled, and of that a library to link with and one to load.
MODULE, COMPILED, ARCHIVE, SHARED = OUT / "engine.wasm", OUT / "libkdf_engine.a", OUT / "libkdf9.a", OUT / "libkdf9.so"

# What the proof keeps, so that after a change only what has changed is proved again.
KEPT = OUT / "incremental"

# The calls that are exported.
CALLS = ["kdf9_facts", "kdf9_run", "kdf9_version"]

TARGET = ["--target=wasm64-unknown-unknown", "-mcpu=lime1", "--no-default-config"]

# The products and shifts of 128 bits that the crate has for WebAssembly, each with the name by which the compiler calls it there.
WIDE = {"kdf9_product": "__multi3", "kdf9_shift_left": "__ashlti3", "kdf9_shift_right_logical": "__lshrti3", "kdf9_shift_right_arithmetic": "__ashrti3"}

# The flags with which the kit's own clang is called for wasm64. The last one is added: that pass would make one product of 128 bits again of the parts of which
# the crate makes it, and so have it call itself.
FLAGS = """-expand-div-rem-bits=64 -expand-fp-convert-bits=64 -trap-unreachable -disable-machine-licm -disable-postra-machine-licm
-sink-common-insts=false -opt-disable=aggressive-instcombine""".split()

# What web/machine.js provides to the module.
IMPORTS = ["rattle_alloc", "rattle_realloc", "rattle_dealloc"]

# The bytes of the stack, the most bytes that the whole memory may have, and how much the compiler optimizes.
STACK, MOST_MEMORY = 1 << 20, 1 << 32
LEVEL = "-O2"

# What says that the bitcode is for x86-64: the two lines at its head, and these attributes.
HEAD = re.compile(r"^target (?:datalayout|triple) = .*$", re.MULTILINE)
ATTRIBUTES = re.compile(r' "(probe-stack|stack-probe-size|target-cpu)"="[^"]*"')
FOREIGN = re.compile(r"(?:declare|attributes|define).*(?:llvm\.x86|x86|target-features)")

# Where the bitcode names what the crate provides to the compiler.
OURS = re.compile(rf"@({'|'.join(WIDE)})\(")

# What hides names of an object file, by either of its names. The kit has no such tool.
HIDES = ("objcopy", "llvm-objcopy")


# What is said of the two stages.
PROVING, COMPILING = "its calls are proved", "it is compiled"

# What a proof writes to the log when it has checked some functions, how much of the end of the log is read for it, and how often.
CHECKED = re.compile(rb"so far: (\d+) of (\d+) functions checked")
END_OF_LOG, PAUSE = 4096, 0.2


NO_RT = "the machine for other programs isn't made yet, and there is no rt on this machine to make it with"


class NoEngine(Exception):
    """Why the machine can't be made."""


def kit():
    """The folder of the kit."""
    return pathlib.Path(subprocess.run(["rt", "doc"], capture_output=True, text=True, check=True).stdout.strip()).parent


def libraries():
    """The built library of each crate on which the machine is built. A crate comes before those that use it."""
    return {name: CRATES / name / "out" / "rlib" for name in crates_below(CRATE)}


def sums():
    """One checksum of all the files from which the machine is made."""
    files = [pathlib.Path(__file__), *(file for name in [*libraries(), CRATE] for file in sorted((CRATES / name / "src").rglob("*.rt")))]
    whole = hashlib.sha256()
    for file in files:
        whole.update(file.read_bytes())
    return whole.hexdigest()


def is_current(made=MODULE):
    """Whether this file is there, and was made from the sources as they are now. A package has only some of the files."""
    return made.is_file() and SUMS.is_file() and SUMS.read_text(encoding="ascii") == sums()


def engine():
    """The bytes of the module. If it isn't current, it is made first."""
    bring_up_to_date(MODULE)
    return MODULE.read_bytes()


def library():
    """The two native libraries: one to link with, and one to load. What isn't current is made first."""
    shared()
    if not ARCHIVE.is_file():
        with a_room() as room:
            room.link()
            room.keep(ARCHIVE)
    return ARCHIVE, SHARED


def shared():
    """The native library to load, which is made first if it isn't current."""
    bring_up_to_date(COMPILED)
    if not SHARED.is_file():
        with a_room() as room:
            room.link_shared()
            room.keep(SHARED)
    return SHARED


def bring_up_to_date(wanted):
    """Makes the machine if this file of it isn't current."""
    if is_current(wanted):
        return
    with a_room() as room:
        if is_current(wanted):
            return
        build_libraries()
        now = sums()
        room.show.begins(PROVING)
        prove(room)
        room.show.begins(COMPILING)
        room.compile()
        for old in (SUMS, ARCHIVE, SHARED):
            if old.exists():
                old.unlink()
        room.keep(MODULE, COMPILED)
        room.show.ends()
        SUMS.write_text(now, encoding="ascii")


def hindrance():
    """Why the machine can't be made here, or None. The libraries that the program uses are built with it; the others are built when they are needed."""
    if not shutil.which("rt"):
        return NO_RT
    own = next((name for name in unbuilt() if name in crates_below(PROGRAM)), None)
    return own and f"the library {own} isn't built here, since the program was built elsewhere; cd crates/kdf9 && rt run -- make 0 builds all"


def unbuilt():
    """The libraries on which the machine is built that aren't built yet."""
    return [name for name, folder in libraries().items() if not (folder / f"{name}.rlib").exists()]


def changed():
    """The libraries that were built of another text than they have now, or over others of which that is so, by the dates of their files."""
    crates = {name: below for name, below in read_crates(CRATE).items() if name != CRATE}
    texts = {name: max((it.stat().st_mtime for it in files_of(name)), default=0) for name in crates}
    built = {name: date_of_library(name) for name in crates}
    return [name for name, below in crates.items() if built[name] and built[name] < max(texts[it] for it in [*below, name])]


def date_of_library(name):
    """When the library of a crate was put there, by its folder, what is in it, or the stamp beside it, or 0 where there is none. `rt ci` leaves no stamp, and the files of a
    library that it has kept are as old as their proof.
    """
    library = CRATES / name / "out" / "rlib" / f"{name}.rlib"
    files = [library, *library.glob("*"), stamp_of(name)] if library.exists() else []
    return max((it.stat().st_mtime for it in files if it.exists()), default=0)


def unstamped():
    """The libraries of which only dates say that they are current."""
    return [name for name in libraries() if not stamp_of(name).is_file()]


def build_libraries():
    """Proves and builds the libraries that aren't built yet, or have changed since."""
    why, wanted = hindrance(), unbuilt() or changed()
    if why:
        raise NoEngine(why)
    if wanted:
        build(wanted)


def build(wanted):
    """Proves and builds what rt doesn't know as current, which these libraries aren't."""
    if subprocess.run([sys.executable, ROOT / "tools" / "build", "--library"], stdin=subprocess.DEVNULL, check=False).returncode:
        raise NoEngine(f"the machine for other programs isn't made, since {wanted[0]} isn't built")


def prove(room):
    """Proves the crate. Where that fails over libraries of which only dates say that they are current, these are built, and it is tried once more."""
    try:
        room.prove()
    except NoEngine:
        wanted = unstamped()
        if not wanted:
            raise
        build(wanted)
        room.prove()


@contextlib.contextmanager
def a_room():
    """A room to make the machine in, which goes when it is done. There is one at a time."""
    if not shutil.which("rt"):
        raise NoEngine(NO_RT)
    found = kit()
    OUT.mkdir(parents=True, exist_ok=True)
    with open(OUT / "lock", "w", encoding="ascii") as lock:
        try:
            fcntl.flock(lock, fcntl.LOCK_EX | fcntl.LOCK_NB)
        except BlockingIOError:
            say("another start is making the machine for other programs; this one waits for it")
            fcntl.flock(lock, fcntl.LOCK_EX)
        with tempfile.TemporaryDirectory(prefix="kdf9-engine-") as folder, open(LOG, "w", encoding="utf-8") as log:
            yield Room(found, pathlib.Path(folder), log)


class Room:
    """A folder in which the tools of a kit make the machine. They write to a log."""

    def __init__(self, found, folder, log):
        self.kit, self.folder, self.log = found, folder, log
        self.linker = found / "toolchain/bin/ld.lld"
        self.show = Stages("the machine for other programs", 2)

    def run(self, *words, **how):
        """Runs a tool, which has to succeed."""
        failed = f"the machine could not be made: see {LOG.relative_to(ROOT)}"
        try:
            process = subprocess.Popen([str(word) for word in words], stdout=self.log, stderr=subprocess.STDOUT, **how)
        except OSError as why:
            raise NoEngine(failed) from why
        with process:
            try:
                self.wait_for(process)
            except BaseException:
                process.kill()
                raise
        if process.returncode:
            raise NoEngine(failed)

    def wait_for(self, process):
        """Waits until a tool has ended, and shows how far it is."""
        while True:
            try:
                process.wait(PAUSE)
                return
            except subprocess.TimeoutExpired:
                self.show.goes_on(self.checked())

    def checked(self):
        """How many functions are proved, if a proof is going on and the log says so."""
        if self.show.name != PROVING:
            return ""
        with open(LOG, "rb") as log:
            log.seek(max(0, log.seek(0, os.SEEK_END) - END_OF_LOG))
            found = CHECKED.findall(log.read())
        return "{} of {} functions".format(*(it.decode("ascii") for it in found[-1])) if found else ""

    def keep(self, *files):
        """Keeps what was made under these names. Each appears whole or not at all."""
        for file in files:
            made = OUT / f"{file.name}.{os.getpid()}"
            shutil.copy(self.folder / file.name, made)
            made.replace(file)

    def prove(self):
        """Proves the crate over the built libraries, compiles it, and keeps its bitcode for x86-64."""
        if not (self.folder / "toolchain").is_dir():
            self.keep_bitcode()
        uses = read_list()[CRATE].partition(":")[2].split()
        words = ["--crate-name", CRATE, "src/lib.rt", "--extern", f"std={self.kit}/rlibs/std.rlib", "-L", f"dependency={self.kit}/rlibs"]
        for name, folder in libraries().items():
            words += ["--extern", f"{name}={folder}/{name}.rlib"] if name in uses else []
            words += ["-L", f"dependency={folder}"]
        words += ["--antt-project", self.kit / "rattle/logic/antt-project.json", "--logic-built", self.kit / "logic_built", "--jobs", "1"]
        words += ["--incremental", KEPT, "--crate-type", "staticlib", "--toolchain", self.folder / "toolchain", "--backend", "llvm"]
        self.run(self.kit / "bin/rattle", "build", *words, "-o", self.folder / COMPILED.name, cwd=CRATES / CRATE)

    def keep_bitcode(self):
        """Makes a toolchain that is the kit's, except that its clang keeps the bitcode that it is given."""
        tools = self.folder / "toolchain"
        (tools / "bin").mkdir(parents=True)
        (tools / "lib").symlink_to(self.kit / "toolchain/lib")
        for tool in (self.kit / "toolchain/bin").iterdir():
            if tool.name != "clang":
                (tools / "bin" / tool.name).symlink_to(tool)
        clang = tools / "bin/clang"
        clang.write_text(f'#!/bin/sh\n[ ! -f module.bc ] || cp module.bc "{self.folder}/module.bc"\nexec "{self.kit}/toolchain/bin/clang" "$@"\n', encoding="utf-8")
        clang.chmod(0o755)

    def compile(self):
        """Makes WebAssembly from the bitcode."""
        clang = self.kit / "toolchain/bin/clang"
        (self.folder / "empty.c").write_text("void empty(void) {}\n", encoding="ascii")
        (self.folder / "imports").write_text("".join(f"{name}\n" for name in IMPORTS), encoding="ascii")
        self.run(clang, *TARGET, "-S", "-emit-llvm", "-o", "empty.ll", "empty.c", cwd=self.folder)
        whole = ["--target=x86_64-unknown-linux-gnu", "-x", "ir", "module.bc", "-S", "-emit-llvm", "-Xclang", "-disable-llvm-passes"]
        self.run(clang, *whole, "-o", "x64.ll", cwd=self.folder)
        self.retarget()
        flags = [word for flag in FLAGS for word in ("-mllvm", flag)] + ["-ffunction-sections", "-fdata-sections", LEVEL]
        self.run(clang, *TARGET, *flags, "-x", "ir", "-c", "wasm64.ll", "-o", "wasm64.o", cwd=self.folder)
        sizes = ["--stack-first", "-z", f"stack-size={STACK}", f"--max-memory={MOST_MEMORY}", "--gc-sections", "--strip-all"]
        doors = ["--no-entry", *(f"--export={name}" for name in [*CALLS, *WIDE.values(), "__heap_base"]), "--allow-undefined-file=imports"]
        self.run(self.linker, "-flavor", "wasm", "-mwasm64", *sizes, *doors, "wasm64.o", "-o", MODULE.name, cwd=self.folder)

    def retarget(self):
        """Writes the text of the bitcode for wasm64, with the compiler's names for what the crate provides. It fails if anything is for x86-64 besides what it changes."""
        heads = iter(HEAD.findall((self.folder / "empty.ll").read_text(encoding="utf-8")))
        text, changed = HEAD.subn(lambda _: next(heads), (self.folder / "x64.ll").read_text(encoding="utf-8"), count=2)
        lines = [ATTRIBUTES.sub("", line) if line.startswith("attributes") else line for line in text.split("\n")]
        foreign = [line for line in lines if FOREIGN.match(line)]
        if changed != 2 or foreign:
            raise NoEngine(f"more of the compiled code is for x86-64 than this tool knows: {foreign[:1]}")
        (self.folder / "wasm64.ll").write_text(OURS.sub(lambda found: f"@{WIDE[found[1]]}(", "\n".join(lines)), encoding="utf-8")

    def link(self):
        """Links what was compiled with the kit's heap, for programs. All names are hidden but those of the calls."""
        hides = next((found for found in map(shutil.which, HIDES) if found), None)
        if hides is None:
            raise NoEngine("the library isn't made, since there is no objcopy on this machine; binutils and LLVM have one")
        self.run(*self.links(), "-r", "-o", "whole.o", cwd=self.folder)
        self.run(hides, *(f"--keep-global-symbol={name}" for name in CALLS), "whole.o", "kdf9.o", cwd=self.folder)
        self.run(self.kit / "toolchain/bin/llvm-ar", "rcs", ARCHIVE.name, "kdf9.o", cwd=self.folder)

    def link_shared(self):
        """Links it as a library to load, of which only the calls are seen."""
        (self.folder / "calls").write_text(f"{{ global: {'; '.join(CALLS)}; local: *; }};\n", encoding="ascii")
        shared = ["-shared", "-s", "-soname", SHARED.name, "--version-script=calls", self.kit / "toolchain/lib/libc.so.6"]
        self.run(*self.links(), *shared, "-o", SHARED.name, cwd=self.folder)

    def links(self):
        """The linker, and what it links."""
        roots = [word for name in CALLS for word in ("-u", name)]
        return [self.linker, "-flavor", "gnu", "-m", "elf_x86_64", *roots, COMPILED, self.kit / "c/liblibc_c.a", self.kit / "toolchain/lib/libgcc.a"]
