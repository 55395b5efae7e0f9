"""Asks the machine again for the answers of quizzes, in another way than the tool: by counting in journals and reading sections."""
import json
import os
import re
import subprocess
import sys
from typing import Callable, Dict, Iterator, List, Optional, Tuple

from toolkit import ROOT, kdf9

sys.path.insert(0, str(ROOT / "tools"))
from quizzes.kinds import KINDS, question  # noqa: E402
from quizzes.written import as_json  # noqa: E402

Cases = Iterator[Tuple[str, Optional[str]]]

SEEDS = 30
PROGRAM = os.environ.get("KDF9") or str(ROOT / "crates" / "kdf9" / "out" / "kdf9")


def program(words: List[str], job: str) -> str:
    """What the program itself writes for a job; the launcher, which takes longer to start, isn't asked."""
    return subprocess.run([PROGRAM, *words], input=job.encode("latin-1"), stdout=subprocess.PIPE, check=False).stdout.decode("latin-1")


def journal_of(job: str) -> List[List[str]]:
    """The entries of the journal of a job, each as its words."""
    report = program(["run"], job)
    return [line.split(" ") for line in report[:report.index("\nSLOT ")].split("\n")[1:]]


def nest_again(question: dict) -> bool:
    """What `alone` says of the nest."""
    words = re.search(r"^NEST \d+ (.*)$", program(["alone", "0"], question["texts"]["job"]), re.MULTILINE)
    numbers = [int(word, 8) for word in words[1].split(" ")] if words else []
    return question["answer"] == " ".join(str(number - 2**48 if number >= 2**47 else number) for number in numbers)


def held_again(question: dict) -> bool:
    """Who had the call, and what the program of slot 0 met last before it."""
    call = int(re.search(r"at call (\d+)", question["asked"])[1])
    calls, hold = 0, None
    for kind, *rest in journal_of(question["texts"]["job"]):
        if kind == "RAN":
            hold = None if rest[0] == "0" else hold
            calls += int(rest[1])
        elif kind in ("LOV", "BUSY"):
            calls, hold = calls + 1, (kind, rest[1]) if rest[0] == "0" else hold
        elif kind == "IDLE":
            calls += int(rest[0])
        elif kind == "END":
            hold = None
        if calls >= call:
            what = {"LOV": "group", "BUSY": "device"}.get(hold[0]) if hold else None
            return kind == "RAN" and question["answer"].startswith(f"slot {rest[0]}; slot 0 is held up by {what} {hold[1] if hold else None}, ")
    return False


def idle_again(question: dict) -> bool:
    """The lines IDLE of the journal, added up."""
    return int(question["answer"]) == sum(int(entry[1]) for entry in journal_of(question["texts"]["job"]) if entry[0] == "IDLE")


def deadlock_again(question: dict) -> bool:
    """The schedule with which both programs are live and wait for the pool, and that is the only one."""
    found = []
    for letter in "ABCD":
        job = f"{question['texts']['job']}SCHEDULE\n{question['texts'][f'schedule {letter}']}ENDJOB\n"
        report = program(["run"], job)
        waits = [re.findall(rf"^(?:RAN|LOV|BUSY|WAIT) {slot}\b.*$", report, re.MULTILINE)[-1] for slot in (0, 1)]
        if report.count("STATE LIVE") == 2 and all(line.startswith("WAIT") for line in waits):
            found.append(letter)
        elif "STATE LIVE" in report:
            return False
    return found == [question["answer"]]


def journal_again(question: dict) -> bool:
    """The first entry in which the journal of the job differs from the one that is shown."""
    right = [" ".join(entry) for entry in journal_of(question["texts"]["job"])]
    shown = question["texts"]["journal"].split("\n")[:-1]
    at = next((at for at, (one, other) in enumerate(zip(shown, right), 1) if one != other), min(len(shown), len(right)) + 1)
    return len(shown) == len(right) - 1 and question["answer"] == str(at)


AGAIN: Dict[str, Callable[[dict], bool]] = {"nest": nest_again, "held": held_again, "idle": idle_again, "deadlock": deadlock_again, "journal": journal_again}


def answers_are_those_of_the_machine() -> Cases:
    """The answers of many seeds, asked again; and each is another question."""
    for kind, again in AGAIN.items():
        made = {seed: json.loads(as_json(question(kind, seed), True)) for seed in range(1, SEEDS + 1)}
        wrong = [told for told in made.values() if not again(told)]
        yield f"{SEEDS} questions {kind}", f"{wrong[:2]}" if wrong else None
        different = len({json.dumps(told["texts"]) for told in made.values()})
        yield f"the questions {kind}", None if different > SEEDS * 2 // 3 else f"only {different} are different"
    yield "the kinds that are tried", None if list(AGAIN) == list(KINDS) else f"are {list(KINDS)}"


def questions_are_written() -> Cases:
    """A question has its answer only where that is asked for, and is the same each time."""
    plain, told = kdf9(["quiz", "nest", "--seed", "7"], ""), kdf9(["quiz", "nest", "--seed", "7", "--answers"], "")
    is_so = plain.status == 0 and "Answer" not in plain.out and told.out.startswith(plain.out) and "\nAnswer: " in told.out
    yield "a question without its answer", None if is_so else f"{plain} {told}"
    page = kdf9(["quiz", "deadlock", "--seed", "7", "--html"], "")
    yield "a page without its answer", None if page.status == 0 and page.out.startswith("<!DOCTYPE html>") and "<details>" not in page.out else f"{page}"
    yield "a page again", None if page == kdf9(["quiz", "deadlock", "--seed", "7", "--html"], "") else "differs"
    bare = kdf9(["quiz", "held", "--seed", "7", "--json"], "")
    yield "JSON without the answer", None if bare.status == 0 and "answer" not in json.loads(bare.out) else f"{bare}"
    for words in (["quiz"], ["quiz", "chess"], ["quiz", "nest", "--seed", "x"]):
        yield f"kdf9 {' '.join(words)}", None if kdf9(words, "").status == 2 else "isn't refused"


SUITES = (answers_are_those_of_the_machine, questions_are_written)
