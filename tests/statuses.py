"""Holds the tools to the table of docs/TOOLS.md: each status in it is tried, with what it has on its two streams."""
import re
import subprocess
import sys
import tempfile
from typing import Dict, Iterator, List, NamedTuple, Optional, Set, Tuple

from commands import LONG, interrupt
from toolkit import ENVIRONMENT, ROOT, document

sys.path.insert(0, str(ROOT / "tools"))
from kdf9.tools import TOOLS  # noqa: E402

Cases = Iterator[Tuple[str, Optional[str]]]

A_JOB, A_FAILURE, A_FAULT = "examples/adds-5-and-7.job", "examples/adds-to-nothing.job", "examples/missing-reference.job"
FAULT_OF_JOB = f"sed 's/STORE 32/STORE 33/' {A_JOB}"
TOO_LARGE = "{ printf 'KDF9 JOB 1\\n'; head -c 5000000 /dev/zero | tr '\\0' x; }"
CHANGED = "examples/refuses-a-changed-snapshot.job"
AN_EXERCISE = "courses/machine/01-five-and-seven.md"

# A program that by itself has another word than under Director, which is never so of the real one.
OTHER_ALONE = """own=$(mktemp); trap 'rm $own' EXIT; chmod +x $own
echo '#!/bin/bash
crates/kdf9/out/kdf9 "$@" | if [ "$1" = alone ]; then sed "s/^WORD 3 .*/WORD 3 0000000000000000/"; else cat; fi' > $own
"""

# What asks for something that a tool may say more about on standard error, or that needs the page.
TALKATIVE, PAGES = ("explain", "page", "replay", "package"), ("page", "replay")

# By words of its second column, each row of the table: what is run, with a status that is due where there are several.
TRIED: Dict[str, List[Tuple[str, int]]] = {
    "it did what": [(TOOLS[it].example, 0) for it in TOOLS if it not in (*PAGES, "lib", "package", "proofs")] + [("./kdf9 proofs", 0)] + [("./kdf9 --help", 0), ("./kdf9 --version", 0), ("./kdf9 run --help", 0)],
    "bad input": [(f"./kdf9 {it} no/such/file", 1) for it in ("explain", "steps", "listing", "schedule", "same", "replay", "lsp --faults")]
    + [(f"echo x | ./kdf9 {it}", 1) for it in ("picture", "json", "report")] + [(f"./kdf9 steps {A_FAULT}", 1), (f"./kdf9 listing {A_JOB} 3", 1), ("./kdf9 package README.md/x", 1), ("./kdf9 mark no/such/folder --try", 1), ("./kdf9 mark machine no/such/folder", 1)]
    + [(r"printf 'Content-Length: 33\r\n\r\n{\"jsonrpc\":\"2.0\",\"method\":\"exit\"}' | ./kdf9 lsp", 1)],
    "can't be written": [(f"{it} > /dev/full", 1) for it in (f"./kdf9 listing {A_JOB}", "./kdf9 --help", "./kdf9 --version", "./kdf9 clean --show", "./kdf9 proofs")]
    + [(f"./kdf9 {it} {A_JOB} >&-", 1) for it in ("listing", "explain")],
    "isn't the same": [(f"{OTHER_ALONE} KDF9=$own {sys.executable} -S tools/same {A_JOB}", 1)],
    "`mark --try`": [(f"course=$(mktemp -d); trap 'rm -r $course' EXIT; sed 's/due V2 = 12/due V2 = 13/' {AN_EXERCISE} > $course/1-x.md; ./kdf9 mark $course --try", 1)],
    "`explain --strict`": [(f"./kdf9 explain --strict {A_FAILURE}", 1), ("./kdf9 explain --strict examples/finds-a-changed-digit.job", 1)],
    "wrong arguments": [(f"./kdf9 {it} --x", 2) for it in TOOLS] + [("./kdf9 walk --help", 2)],
    "with a fault. It": [
        (f"{FAULT_OF_JOB} | ./kdf9 explain -", 2), (f"./kdf9 explain {A_FAULT}", 3), (f"{TOO_LARGE} | ./kdf9 explain -", 4), (f"./kdf9 explain {CHANGED}", 8),
    ],
    "was given a line": [
        (f"{made} | ./kdf9 {it}", status) for it in ("picture", "json")
        for made, status in (
            (f"{FAULT_OF_JOB} | ./kdf9 run", 2), (f"./kdf9 run < {A_FAULT}", 3), (f"{TOO_LARGE} | ./kdf9 run", 4), (f"./kdf9 resume < {CHANGED}", 8),
        )
    ],
    "interrupted": [],
}


class Row(NamedTuple):
    """A row of the table: its statuses, when it is so, and what standard output and standard error have."""

    statuses: Set[int]
    when: str
    out: str
    err: str


def rows() -> List[Row]:
    """The rows of the table."""
    found = re.findall(r"^\| ([0-9, or]+) \| (.*?) \| (.*?) \| (.*?) \|$", document("TOOLS.md"), re.MULTILINE)
    return [Row(set(map(int, re.findall(r"\d+", status))), *rest) for status, *rest in found]


def statuses_are_those_of_the_table() -> Cases:
    """Each row is tried, and nothing that isn't a row."""
    tried = {key: [row for row in rows() if key in row.when] for key in TRIED}
    wrong = [key for key, found in tried.items() if len(found) != 1]
    yield "the rows that are tried", f"{wrong} in {rows()}" if wrong or len(rows()) != len(TRIED) else None
    for key, (row, *_) in tried.items():
        for words, status in TRIED[key]:
            yield f"status {status} of {words}", how_it_differs(row, words, status)
        due = {status for _, status in TRIED[key]}
        yield f"the statuses that are tried where {key}", None if due in (row.statuses, set()) else f"{due} in place of {row.statuses}"


def how_it_differs(row: Row, words: str, status: int) -> Optional[str]:
    """What is wrong with a run, by its row; or None."""
    whole = f"set -o pipefail; cd {ROOT}; {words}"
    done = subprocess.run(["bash", "-c", whole], env=ENVIRONMENT, capture_output=True, stdin=subprocess.DEVNULL, check=False)
    lines = done.stderr.count(b"\n")
    is_talkative = any(f"./kdf9 {it} " in words for it in TALKATIVE)
    out = row.out.startswith("what could") or bool(done.stdout) != row.out.startswith("nothing")
    err = lines == 1 if row.err.startswith("one line") else lines > 0 if row.err.startswith("what is wrong") else lines == 0 or is_talkative
    return None if done.returncode == status and out and err else f"{done.returncode} {done.stdout[:80]} {done.stderr[:200]} in place of {row}"


def interrupts_have_their_status() -> Cases:
    """A tool that Ctrl-C ended has the status that the table says a shell has for it."""
    with tempfile.TemporaryFile() as job:
        job.write(LONG.encode("ascii"))
        job.seek(0)
        streams = {"stdin": job, "stdout": subprocess.DEVNULL, "stderr": subprocess.PIPE}
        process = subprocess.Popen([ROOT / "kdf9", "schedule", "-"], env=ENVIRONMENT, start_new_session=True, **streams)
        interrupt(process, 0.5)
        _, err = process.communicate()
    row, = [it for it in rows() if "interrupted" in it.when]
    status = 128 - process.returncode if process.returncode < 0 else process.returncode
    yield "the status of a tool that was interrupted", None if {status} == row.statuses and not err else f"{status} {err}"


SUITES = (statuses_are_those_of_the_table, interrupts_have_their_status)
