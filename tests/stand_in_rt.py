"""Stands in for rt in the tests of ./kdf9. As rt does, it wants all crates of the list to be there, and the folders of its crate and of those below
for itself; it proves what isn't proved yet, and carries on from what it kept. The text of a source says how its proof goes, and for which crates it waits.
"""
import fcntl
import hashlib
import os
import pathlib
import sys
import time

OWN = pathlib.Path.cwd().name
CRATES = pathlib.Path.cwd().parent
LOG = pathlib.Path(__file__).parent.parent / "log"
PROGRAM = """#!/usr/bin/env bash
printf '<%s>' {} "$@"
cat
exit 42
"""


def below(name, uses):
    """The crates of the repository that one stands on, each after those that it stands on itself."""
    found = []
    for it in uses[name]:
        found += [each for each in [*below(it, uses), it] if each not in found] if it in uses else []
    return found


def log(*words):
    with open(LOG, "a", encoding="ascii") as lines:
        print(*words, file=lines)


def wait_for(name):
    """Waits until the proof of another crate has begun, for a minute at most."""
    for _ in range(600):
        if f"begins {name}\n" in LOG.read_text():
            return
        time.sleep(0.1)
    sys.exit(f"{name} doesn't begin")


def source_of(name):
    return "".join(path.read_text() for path in sorted((CRATES / name / "src").iterdir()))


def prove(name, uses):
    """Proves a crate, unless the same is proved already."""
    out = CRATES / name / "out"
    stamp = hashlib.sha256("".join(map(source_of, [*below(name, uses), name])).encode()).hexdigest()
    if (out / "rlib/stamp").is_file() and (out / "rlib/stamp").read_text() == stamp:
        return
    log("goes on with" if (out / "incremental").exists() else "begins", name)
    (out / "incremental").mkdir(parents=True, exist_ok=True)
    source = source_of(name)
    if "faulty" in source:
        print(f"fn {name}::first: proved\nfn {name}::last: not proved\nstatements std: modules loaded=5 checked=0")
        sys.exit(1)
    if "slow" in source:
        (CRATES / name / "src/main.rt").write_text("changed\n")
    for other in [it for it in source.split() if it in uses]:
        wait_for(other)
    time.sleep(60 if "endless" in source else 0)
    (out / "rlib").mkdir(exist_ok=True)
    (out / "rlib/stamp").write_text(stamp)
    log("proves", name)
    print("logic=proved")


def tries():
    """Runs the source without a proof, as rt try does: it shows that, its arguments and its input. A source that is silent gives no answer."""
    source, words = source_of(OWN).strip(), sys.argv[sys.argv.index("--") + 1:]
    if "silent" in source:
        print("checked: no-answer\nrun=none proved=no", file=sys.stderr)
        sys.exit(6)
    print(end="".join(f"<{word}>" for word in ["tried", source, *words]) + sys.stdin.read())
    print("checked: ended status=42\nrun=ended status=42 runners=1 proved=no", file=sys.stderr)
    sys.exit(42)


def main():
    if sys.argv[1:] == ["version"]:
        print("a kit that stands in")
        return
    if sys.argv[1] == "try":
        tries()
    lines = (CRATES.parent / "crates.txt").read_text().splitlines()
    uses = {name: libraries.split() for name, _, libraries in (line.partition(":") for line in lines)}
    names = [*below(OWN, uses), OWN]
    source = source_of(OWN).strip()
    if not all((CRATES / name / "src").is_dir() for name in uses):
        sys.exit(2)
    for name in names:
        fcntl.flock(os.open(CRATES / name, os.O_RDONLY), fcntl.LOCK_EX | fcntl.LOCK_NB)
    for name in names:
        prove(name, uses)
    if sys.argv[1] == "run":
        log("builds")
        program = CRATES / OWN / "out" / OWN
        program.write_text(PROGRAM.format(source))
        program.chmod(0o755)


main()
