"""Tries what a user installs and asks first: --help and --version, the manual page, the completions, the list of changes, the first start and the package."""
import re
import shutil
import subprocess
import sys
from typing import Iterator, Optional, Tuple

from completions import shells
from first import SUITES as FIRST
from packages import packages_are_made
from toolkit import ENVIRONMENT, ROOT, document, kdf9

sys.path.insert(0, str(ROOT / "tools"))
from kdf9.commands import COMMANDS  # noqa: E402
from kdf9.tools import TOOLS  # noqa: E402

Cases = Iterator[Tuple[str, Optional[str]]]

# No version has more lines in CHANGELOG.md.
MOST_LINES = 10


def commands_are_those_of_the_program() -> Cases:
    """The table of the commands has those that the program and docs/JOB.md have, and each example works as it stands."""
    words = [f"{it.name} {it.arguments.partition('<')[0]}".strip() for it in COMMANDS.values()]
    usage = kdf9(["help"], "").out
    yield "the usage line of the program", None if usage == f"USAGE kdf9 {', '.join(words)}\n" else f"{usage!r} in place of {words}"
    rows = re.findall(r"^\| `([a-z]+(?: [A-Z])*)` \| ", document("JOB.md").partition("## The text of a job")[0], re.MULTILINE)
    yield "the commands of docs/JOB.md", None if rows == words else f"{rows} in place of {words}"
    for command in COMMANDS.values():
        done = subprocess.run(["bash", "-c", command.example], cwd=ROOT, env=ENVIRONMENT, capture_output=True, check=False)
        yield f"the example {command.example}", None if done.returncode == 0 and done.stdout and not done.stderr else f"{done}"


def help_is_given() -> Cases:
    """--help lists all there is, and says of each command how it is used; it reads nothing and has status 0."""
    whole = kdf9(["--help"], "")
    listed = [f"  {it.usage}\n      {it.does}\n" for it in [*COMMANDS.values(), *TOOLS.values()]]
    yield "--help", None if (whole.status, whole.err) == (0, "") and all(it in whole.out for it in listed) else f"{whole}"
    yield "-h", None if kdf9(["-h"], "") == whole else "is another text"
    for command in COMMANDS.values():
        for word in ("-h", "--help"):
            run = kdf9([command.name, word], "")
            good = (run.status, run.err) == (0, "") and run.out == f"usage: {command.usage}\n\n{command.does}\n\nexample:\n  {command.example}\n"
            yield f"{command.name} {word}", None if good else f"{run}"
    full = subprocess.run(["bash", "-c", "./kdf9 --help > /dev/full"], cwd=ROOT, env=ENVIRONMENT, capture_output=True, check=False)
    yield "--help to a full disk", None if (full.returncode, full.stderr) == (1, b"standard output: No space left on device\n") else f"{full}"


def changes_are_listed() -> Cases:
    """CHANGELOG.md has a few lines for each version, the newest first, and --version says the newest."""
    text = (ROOT / "CHANGELOG.md").read_text(encoding="utf-8")
    parts = re.split(r"^## (\d+\.\d+\.\d+)\n", text, flags=re.MULTILINE)[1:]
    versions, entries = parts[::2], parts[1::2]
    numbers = [tuple(map(int, it.split("."))) for it in versions]
    yield "the versions", None if numbers == sorted(set(numbers), reverse=True) and numbers else f"{versions}"
    for version, entry in zip(versions, entries):
        lines = [line for line in entry.splitlines() if line]
        good = re.fullmatch(r"20\d\d-\d\d-\d\d\.", lines[0]) and 1 < len(lines) <= MOST_LINES and all(line.startswith("- ") for line in lines[1:])
        yield f"the changes of {version}", None if good else f"{lines}"
    run = kdf9(["--version"], "")
    yield "--version", None if (run.status, run.err) == (0, "") and run.out.startswith(f"kdf9 {versions[0]}\ncommit: ") else f"{run}"
    licence = re.findall(r"^SPDX-License-Identifier: (.*)$", (ROOT / "README.md").read_text(encoding="utf-8"), re.MULTILINE)
    yield "the licence in README.md", None if licence == ["MIT"] else f"{licence}"


def manual_is_current() -> Cases:
    """What is made of the tables is as they are now, and the manual page is one that man shows without a warning."""
    done = subprocess.run(["tools/manual"], cwd=ROOT, env=ENVIRONMENT, capture_output=True, text=True, check=False)
    yield "what tools/manual made", None if (done.returncode, done.stdout, done.stderr) == (0, "", "") else f"{done}"
    if not shutil.which("man"):
        print("install: man isn't on this machine, so the manual page isn't shown")
        return
    how = {**ENVIRONMENT, "MANWIDTH": "100", "LC_ALL": "C.UTF-8"}
    done = subprocess.run(["man", "--warnings", "-l", "install/kdf9.1"], cwd=ROOT, env=how, capture_output=True, text=True, check=False)
    shown = " ".join(re.sub(".\b", "", done.stdout).replace("\u2010", "-").split())
    missing = [it.name for it in [*COMMANDS.values(), *TOOLS.values()] if it.usage[2:] not in shown]
    yield "the manual page", None if done.returncode == 0 and not done.stderr and not missing else f"{missing} {done.stderr}"


SUITES = (commands_are_those_of_the_program, help_is_given, changes_are_listed, manual_is_current, shells, *FIRST, packages_are_made)


def main() -> int:
    cases = [case for suite in SUITES for case in suite()]
    faults = [(what, why) for what, why in cases if why]
    for what, why in faults:
        print(f"install: {what}: {why}")
    print(f"install: {len(cases) - len(faults)} passed, {len(faults)} failed")
    return 1 if faults else 0


if __name__ == "__main__":
    sys.exit(main())
