"""Tries the courses, the marking of a class, hostile hand-ins, and faulty exercises.

    python3 tests/course.py [--seeds N]     runs each solution also under the schedules of so many seeds
"""
import base64
import csv
import gzip
import io
import json
import os
import pathlib
import re
import shutil
import sys
import tempfile
import zipfile
from typing import Callable, Dict, Iterator, List, Optional, Tuple

from course_quiz import PROGRAM, SUITES as QUIZZES
from toolkit import ROOT, document, kdf9, refused

sys.path.insert(0, str(ROOT / "tools"))
from courses import machine, reading  # noqa: E402
from courses.exercise import Exercise  # noqa: E402

Cases = Iterator[Tuple[str, Optional[str]]]

COURSES, SHEET = ROOT / "courses", ROOT / "tests" / "sheet"

# The students of the class, and how many of them hand in zip files and links.
CLASS, SOME = 30, 3

# The seeds under which the solutions are run when nothing else is said.
USUAL_SEEDS = 1

# Hand-ins of the class that are right in another way than the solution, by exercise and number; the others are its solution, 0, and its wrong ones.
OTHERS_RIGHT = {"2-root": {1: ("V0; J3=Z;", "")}, "3-reverse": {1: ("REV; ERASE; EXIT 1", "EXIT 1")}}


def courses_are_tried(seeds: int) -> Cases:
    """Each solution of the courses passes, and each wrong solution is refused with its own remark."""
    for course in sorted(path.name for path in COURSES.iterdir()):
        exercises = reading.course(str(COURSES / course))
        run = kdf9(["mark", course, "--try", "--seeds", str(seeds)], "")
        yield f"mark {course} --try", None if run.status == 0 and run.out.count("\n") == len(exercises) and not run.err else f"{run}"
        for exercise in exercises:
            wrong = len(exercise.wrong)
            yield f"the wrong solutions of {exercise.name}", None if wrong >= 3 else f"are only {wrong}"
            yield f"the hints of {exercise.name}", None if exercise.hints else "are missing"


def text_of(exercise: Exercise, number: int) -> str:
    """The hand-in of this number for an exercise of the class."""
    others = OTHERS_RIGHT.get(exercise.name, {})
    if number in others:
        return exercise.solution.replace(*others[number], 1)
    left = [each for each in range(1, 4) if each not in others]
    return exercise.wrong[left.index(number)].text if number else exercise.solution


def hand_in(folder: pathlib.Path, exercises: List[Exercise], form: Callable[[pathlib.Path, Dict[str, str]], None], number_of_students: int) -> None:
    """Writes what the first students of the class handed in, in some form."""
    for line in (SHEET / "class.txt").read_text(encoding="ascii").split("\n")[:number_of_students]:
        name, *numbers = line.split(" ")
        form(folder / name, {exercise.name: job_of(exercise, int(number)) for exercise, number in zip(exercises, numbers) if number != "-"})


def job_of(exercise: Exercise, number: int) -> str:
    """A job of the class with other devices and another schedule than the exercise's."""
    return f"KDF9 JOB 1\nSLOT 0\nSTORE 160\nDECK\n{text_of(exercise, number)}ENDDECK\nDEVICE 4 CR\n+00000010\nDEVICE 5 LP\nSCHEDULE\nORDERS 1000\nENDJOB\n"


def as_folder(path: pathlib.Path, jobs: Dict[str, str]) -> None:
    """Hands in a folder of jobs."""
    path.mkdir()
    for name, job in jobs.items():
        (path / f"{name}.job").write_text(job, encoding="ascii")


def as_zip(path: pathlib.Path, jobs: Dict[str, str]) -> None:
    """Hands in a zip file of jobs, in a folder of its own."""
    with zipfile.ZipFile(f"{path}.zip", "w", zipfile.ZIP_DEFLATED) as packed:
        for name, job in jobs.items():
            packed.writestr(f"mine/{name}.job", job)


def as_links(path: pathlib.Path, jobs: Dict[str, str]) -> None:
    """Hands in a file of links."""
    path.with_suffix(".txt").write_text("".join(f"{name.partition('-')[0]} {link_of(job)}\n" for name, job in jobs.items()), encoding="ascii")


def link_of(job: str) -> str:
    """The link that the page makes of a job."""
    return "file:///home/me/kdf9.html#job=" + base64.urlsafe_b64encode(gzip.compress(job.encode("ascii"))).decode("ascii").rstrip("=")


def work_link(work: object) -> str:
    """The link that the page makes of the work at a course."""
    return "file:///home/me/course.html#work=" + base64.urlsafe_b64encode(gzip.compress(json.dumps(work).encode("ascii"))).decode("ascii").rstrip("=")


def class_gets_its_marks() -> Cases:
    """The class gets its marks, and some of it in each form."""
    exercises, due = reading.course(str(SHEET)), (SHEET / "marks.csv").read_text(encoding="ascii").split("\n")[:-1]
    remarks = set()
    for form, number in ((as_folder, CLASS), (as_zip, SOME), (as_links, SOME)):
        with tempfile.TemporaryDirectory() as name:
            hand_in(pathlib.Path(name), exercises, form, number)
            run = kdf9(["mark", str(SHEET), name, "--csv"], "")
        rows = [",".join(row[:2 + len(exercises)]) for row in csv.reader(io.StringIO(run.out))]
        yield f"the marks of the class {form.__name__}", None if rows == due[:1 + number] else f"{[it for it in zip(rows, due) if it[0] != it[1]]} {run.err}"
        remarks.add("".join(run.out.splitlines(True)[:1 + SOME]))
    yield "the remarks in three forms", None if len(remarks) == 1 else "differ"


def in_zip(*files: Tuple[str, bytes], packing: int = zipfile.ZIP_DEFLATED) -> Callable[[pathlib.Path], None]:
    """Hands in a zip file."""

    def write(path: pathlib.Path) -> None:
        """Writes the zip file."""
        with zipfile.ZipFile(f"{path}.zip", "w", packing) as packed:
            for name, data in files:
                packed.writestr(name, data)

    return write


def in_folder(*files: Tuple[str, bytes]) -> Callable[[pathlib.Path], None]:
    """Hands in a folder."""

    def write(path: pathlib.Path) -> None:
        """Writes the folder."""
        for name, data in files:
            (path / name).parent.mkdir(parents=True, exist_ok=True)
            (path / name).write_bytes(data)

    return write


def in_file(text: str) -> Callable[[pathlib.Path], None]:
    """Hands in a file of links."""
    return lambda path: (path.parent / f"{path.name}.txt").write_text(text, encoding="latin-1") and None


def linked(target: str) -> Callable[[pathlib.Path], None]:
    """Hands in a folder with a symbolic link."""
    return lambda path: (path.mkdir(), (path / "01.job").symlink_to(target)) and None


def piped(path: pathlib.Path) -> None:
    """Hands in a pipe, which nobody writes to."""
    path.mkdir()
    os.mkfifo(path / "01.job")


def cut_off(path: pathlib.Path) -> None:
    """Hands in a zip file without its end."""
    in_zip(("01.job", SUM))(path)
    file = path.parent / f"{path.name}.zip"
    file.write_bytes(file.read_bytes()[:-30])


SUM = b"PROGRAM V2; V0 = 5; V1 = 7; V0; V1; +; =V2; ZERO; OUT; FINISH;\n"
LOOP = b"PROGRAM V2; V0 = 5; V1 = 7; 1; J1; FINISH;\n"
BOMB = b" " * 40_000_000

# What hostile and careless students hand in, and what is said of it. Those of whom nothing is said are right.
HOSTILE: List[Tuple[str, Callable[[pathlib.Path], None], str]] = [
    ("right", in_folder(("01.deck", SUM)), ""),
    ("windows", in_folder(("sub/01-Five and Seven.JOB", b"\xef\xbb\xbfKDF9 JOB 1\r\nSLOT 0\r\nSTORE 32\r\nDECK\r\n" + SUM.replace(b"\n", b"\r\n") + b"ENDDECK\r\n")), ""),
    ("half a job", in_folder(("1.txt", b"KDF9 JOB 1\nSLOT 2\nSTORE 99\nDECK\n" + SUM)), ""),
    ("leftovers", in_zip(("__MACOSX/._01.job", b"x"), (".DS_Store", b"x"), ("01.job", SUM)), ""),
    ("loops", in_folder(("01.deck", LOOP)), "it is in a loop"),
    ("4 MB", in_folder(("01.deck", SUM * 62000)), "more than 65536 bytes"),
    ("a zip bomb", in_zip(("01.job", BOMB)), "more than 65536 bytes"),
    ("many files", in_zip(*((f"{at}.job", b"") for at in range(500))), "more than 400 files"),
    ("leads out", in_zip(("../../01.job", SUM)), "leads out of it"),
    ("absolute", in_zip(("/tmp/01.job", SUM)), "leads out of it"),
    ("packed otherwise", in_zip(("01.job", SUM), packing=zipfile.ZIP_LZMA), "packed in a way"),
    ("cut off", cut_off, "damaged"),
    ("no zip", lambda path: (path.parent / "no zip.zip").write_bytes(b"PK no zip") and None, "damaged"),
    ("a link of the system", linked("/etc/passwd"), "symbolic link"),
    ("a link to a folder", linked("/"), "symbolic link"),
    ("a pipe", piped, "nothing was handed in"),
    ("a damaged link", in_file(f"1 {link_of(SUM.decode())[:-9]}\n"), "link is damaged"),
    ("no base 64", in_file("1 file:///kdf9.html#job=%%%\n"), "link is damaged"),
    ("work", in_file(f"{work_link({'course': 'machine', 'work': {'1': {'job': SUM.decode()}}})}\n"), ""),
    ("damaged work", in_file(f"{work_link({'work': {'1': {'job': SUM.decode()}}})[:-9]}\n"), "link is damaged"),
    ("work of numbers", in_file(f"{work_link({'work': {'1': {'job': 7}}})}\n"), "link is damaged"),
    ("no work", in_file(f"{work_link([[]])}\n"), "link is damaged"),
    ("deep work", in_file("#work=" + base64.b64encode(gzip.compress(b"[" * 500_000)).decode() + "\n"), "link is damaged"),
    ("a bomb of work", in_file("#work=" + base64.b64encode(gzip.compress(BOMB)).decode() + "\n"), "more than 1048576 bytes"),
    ("a long deck of work", in_file(f"{work_link({'work': {'1': {'job': SUM.decode() * 2000}}})}\n"), "more than 65536 bytes"),
    ("a bomb of a link", in_file("1 #job=" + base64.b64encode(gzip.compress(BOMB)).decode() + "\n"), "more than 65536 bytes"),
    ("a link", in_file(f"1. {link_of(SUM.decode())}\n\n"), ""),
    ("two", in_folder(("01.deck", SUM), ("1 new.deck", SUM)), "2 texts for this exercise"),
    ("no letters", in_folder(("01.deck", b"\xff\xfe\x00" + SUM)), "plain text"),
    ("no ASCII", in_folder(("01.deck", SUM.replace(b"+;", "+; (\u00e4)".encode()))), "BadByte"),
    ("nothing", in_folder(("01.deck", b"")), "neither a deck"),
    ("another file", in_folder(("essay.pdf", b"%PDF")), "nothing was handed in"),
    ("brings slots", in_folder(("01.deck", SUM[:-9] + b"\nENDDECK\nSLOT 1\nSTORE 32\nDECK\nPROGRAM; FINISH;\n")), "NoFinish"),
    ("open comment", in_folder(("01.deck", b"PROGRAM V2; " + b"(" * 60000)), "CommentOpen"),
    ("many statements", in_folder(("01.deck", b"PROGRAM V2;" + b"*;" * 30000 + b"FINISH;")), "not an order"),
    ("no store", in_folder(("01.deck", b"PROGRAM; ZERO; OUT; FINISH;")), "has no V0"),
    ("a long name", in_folder(("01.deck", b"PROGRAM V99999999999999999999; V0 = 1; FINISH;")), "has no V1"),
    ("=1+1", in_folder(("01.deck", LOOP)), "it is in a loop"),
    ("a\nb", in_folder(("01.deck", LOOP)), "it is in a loop"),
]


def hostile_cost_themselves() -> Cases:
    """Whatever a student hands in, the others get their marks, and the table is the same each time."""
    with tempfile.TemporaryDirectory() as name:
        course, handed = pathlib.Path(name, "course"), pathlib.Path(name, "handed")
        course.mkdir()
        handed.mkdir()
        shutil.copy(COURSES / "machine" / "01-five-and-seven.md", course)
        for student, write, _ in HOSTILE:
            write(handed / student)
        run = kdf9(["mark", str(course), str(handed), "--json"], "")
        again = kdf9(["mark", str(course), str(handed), "--json"], "")
        table = kdf9(["mark", str(course), str(handed), "--csv"], "").out
        page = kdf9(["mark", str(course), str(handed), "--html"], "").out
    yield "the status of a class with hostile hand-ins", None if run.status == 0 and not run.err else f"{run.status} {run.err}"
    yield "the same table again", None if run == again else "is another one"
    told = {each["name"]: each["exercises"][0] for each in json.loads(run.out)["students"]} if run.out else {}
    for student, _, due in HOSTILE:
        got = told.get(student.replace("\n", "?"), {})
        said = f"{got.get('remark')} {got.get('first')}"
        yield f"the hand-in '{student}'", None if got and (got["marks"] == 10) == (not due) and due in said else f"{got}"
    with tempfile.TemporaryDirectory() as name:
        pathlib.Path(name, "idle").mkdir()
        pathlib.Path(name, "busy").mkdir()
        pathlib.Path(name, "busy", "03.deck").write_bytes(SUM)
        text = kdf9(["mark", "machine", name], "").out
    yield "what is said of several alike", None if "\nidle\n  1 to 12: nothing was handed in\n" in text and "\n  1, 2, 4 to 12: nothing was handed in\n" in text else text
    yield "no formula in the table", None if "\n'=1+1," in table and "\n=" not in table else table[:300]
    yield "no name on the wall", None if "windows" not in page and page.count("<tr>") > len(HOSTILE) else page[:300]


# What is changed in the first exercise, and the line and the words of its refusal.
FAULTY: List[Tuple[str, str, int, str]] = [
    ("# Five and seven", "Five and seven", 1, "the title"),
    ("```rules", "```rulez", 24, "means nothing"),
    ("orders at most 10", "orders at most ten", 25, "needs a number"),
    ("orders at most 10", "order at most 10", 25, "isn't a rule"),
    ("orders at most 10", "orders at most 10\norders at most 9", 26, "a second rule"),
    ("orders at most 10", "schedules after twenty", 25, "isn't a schedule"),
    ("orders at most 10", "schedules speeds cray", 25, "isn't a schedule"),
    ("orders at most 10", "hand in decks", 25, "deck 0 to deck 3"),
    ("orders at most 10", "hand in schedule\nschedules after 5", 26, "own is the only one"),
    ("never use SET 12", "never use ADD", 26, "isn't an order"),
    ("questions nest", "questions chess", 27, "isn't a kind of questions"),
    ("```word\nef7d", "```word\nXf7d", 50, "64 hexadecimal digits"),
    ("```word", "```case x\ndue V2 = 1\n```\n```word\n```\n```word", 55, "a second block word"),
    ("due V2 = 12", "due V2 = twelve", 33, "isn't a constant"),
    ("due V2 = 12", "due V2 is 12", 33, "can be due"),
    ("due V2 = 12", "due cals at most 5", 33, "can be due"),
    ("due V2 = 12", "give V2 = 12", 30, "nothing is due"),
    ("give V0 = 5\ngive V1 = 7", "give V0 5", 31, "can't be given"),
    ("give V0 = 5\ngive V1 = 7", "take V0 = 5", 31, "begins with give"),
    ("```case a number below zero", "```case 5 and 7", 36, "another case"),
    ("```\n\n## Hints", "\n## Hints", 36, "has no ``` at its end"),
    ("## Hints", "## Hint", 42, "isn't a heading here"),
    ("- A store by itself", "A store by itself", 44, "a hint begins"),
    ("## Solution", "## Answers", 50, "can't stand here"),
    ("(your orders come here) =>", "(your orders) =>", 55, "0 times"),
    ("V0; V1; +; => SET 5; SET 7; +;", "V0; V1; +; SET 5; SET 7; +;", 68, "OLD => NEW"),
    ("Usercode writes + for an addition.", "", 81, "no remark"),
    ("## Wrong: fetches the sum", "## Wrong:", 73, "isn't a heading here"),
    ("KDF9 JOB 1", "KDF9 JOB 2", 8, "Header"),
    ("STORE 32", "STORE 33", 10, "SizeNotGroups"),
    ("ZERO; OUT;\nFINISH;", "ZER; OUT;\nFINISH;", 15, "UnknownOrder"),
]

# What is changed in it so that --try refuses it, and the words of that.
REFUSED: List[Tuple[str, str, str]] = [
    ("due V2 = 12", "due V2 = 13", "the solution fails: 6 of 9 runs / on 5 and 7, at once: V2 = 12; due: 13"),
    ("orders at most 10", "orders at most 6", "the program obeyed 7 orders; due: at most 6"),
    ("orders at most 10", "words at most 5", "and the exercise allows 5"),
    ("never use SET 12", "never use +", "+ is used"),
    ("never use SET 12", "use DUP", "wants DUP"),
    ("+; => SET 5; SET 7; +;", "+; => V1; V0; +;", "'adds the numbers of the tour' passes"),
    ("=V2 => V2", "V0; V1; +; => SET 5; SET 7; +;", "so its remark can't be given"),
]


def faulty_are_refused() -> Cases:
    """A faulty exercise is refused with its line; one that doesn't do what it says is refused by --try."""
    text = (COURSES / "machine" / "01-five-and-seven.md").read_text(encoding="utf-8")
    with tempfile.TemporaryDirectory() as name:
        path = pathlib.Path(name, "01-x.md")
        for old, new, line, said in FAULTY:
            path.write_text(text.replace(old, new, 1), encoding="utf-8")
            why = why_refused(path)
            at = re.match(rf"{re.escape(str(path))}:(\d+): ", why)
            is_so = at and said in why and (not line or int(at[1]) == line) and text.count(old) >= 1
            yield f"an exercise with {new!r}", None if is_so else f"is refused so: {why}"
        for old, new, said in REFUSED:
            path.write_text(text.replace(old, new, 1), encoding="utf-8")
            run = kdf9(["mark", name, "--try"], "")
            yield f"an exercise with {new!r} that is tried", None if run.status == 1 and not run.out and said in run.err and old in text else f"{run}"
        path.write_text(text[:text.index("```case")] + "## Solution" + text.split("## Solution")[1].replace("```case", "```text"), encoding="utf-8")
        run = kdf9(["mark", name, "--try"], "")
        yield "an exercise without a case", None if refused(run) and "has no case" in run.err else f"{run}"


def why_refused(path: pathlib.Path) -> str:
    """Why an exercise is refused, or nothing."""
    try:
        reading.exercise(path)
    except reading.Faulty as why:
        return str(why)
    return ""


def students_get_no_solution() -> Cases:
    """What is handed out has the task and the starting job, and no solution."""
    with tempfile.TemporaryDirectory() as name:
        run = kdf9(["mark", "machine", "--hand-out", f"{name}/out"], "")
        in_folder(("01.deck", SUM))(pathlib.Path(name, "mine", "me"))
        mine = json.loads(kdf9(["mark", f"{name}/out", f"{name}/mine", "--json"], "").out)["students"][0]["exercises"]
        yield "marks by what was handed out", None if [each["marks"] for each in mine] == [10] + [0] * (len(mine) - 1) else f"{mine}"
        tried = kdf9(["mark", f"{name}/out", "--try"], "")
        yield "what was handed out is tried", None if tried.status == 1 and tried.err.count("has no ## Solution") == len(mine) else f"{tried}"
        sheets = {path.name: path.read_text(encoding="utf-8") for path in pathlib.Path(name, "out").iterdir()}
        exercises = reading.course("machine")
        due = {f"{exercise.name}.{kind}" for exercise in exercises for kind in ("md", "job")}
        yield "what is handed out", None if run.status == 0 and set(sheets) == due else f"{run} {sorted(sheets)}"
        told = [name for name, sheet in sheets.items() if "## Solution" in sheet or "## Wrong" in sheet or "=>" in sheet]
        yield "solutions that are handed out", f"are in {told}" if told else None
        starts = [name for name, sheet in sheets.items() if name.endswith(".job") and kdf9(["run"], sheet).status]
        yield "the starting jobs", f"have faults: {starts}" if starts else None
        again = kdf9(["mark", "machine", "--hand-out", f"{name}/out"], "")
        yield "a folder that isn't empty", None if refused(again) and "isn't empty" in again.err else f"{again}"


def page_is_so() -> Cases:
    """The exercise that docs/COURSE.md shows is right, and the fault that it shows is refused so."""
    page = document("COURSE.md")
    text = re.search(r"^````markdown\n(.*?)^````$", page, re.MULTILINE | re.DOTALL)[1]
    name, line, said = re.search(r"^courses/mine/(\S+):(\d+): (.*)$", page, re.MULTILINE).groups()
    with tempfile.TemporaryDirectory() as folder:
        path = pathlib.Path(folder, name)
        path.write_text(text, encoding="utf-8")
        run = kdf9(["mark", folder, "--try"], "")
        yield "the exercise of docs/COURSE.md", None if run.status == 0 and "1 wrong solution refused" in run.out else f"{run}"
        path.write_text(text.replace("due V1 = 42", "due V1 is 42"), encoding="utf-8")
        yield "the fault of docs/COURSE.md", None if why_refused(path) == f"{path}:{line}: {said}" else why_refused(path)


# A step of the lecture in docs/TEACHING.md: its number, the example to choose, the command, and what that shows.
STEP = re.compile(r"^(\d+)\. Choose `([\w-]+)`.*? Say: \".+\"\n +`\./kdf9 (\w+) (\S+)` shows `(.+?)`", re.MULTILINE)


def lecture_is_so() -> Cases:
    """The lecture of docs/TEACHING.md has ten steps, each with an example that the page has, and its command shows what it says."""
    steps, listed = STEP.findall(document("TEACHING.md")), document("EXAMPLES.md")
    yield "the steps of the lecture", None if [step[0] for step in steps] == [str(number) for number in range(1, 11)] else f"{[step[0] for step in steps]}"
    for number, example, tool, job, shows in steps:
        run = kdf9([tool, job], "")
        is_there = f"`{example}`" in listed and job == f"examples/{example}.job"
        yield f"step {number} of the lecture", None if is_there and shows in run.out + run.err else f"{run}"


SUITES: List[Callable[[], Cases]] = [class_gets_its_marks, hostile_cost_themselves, faulty_are_refused, students_get_no_solution, page_is_so, lecture_is_so, *QUIZZES]


def main(words: List[str]) -> int:
    """Does what the words say, and returns the status."""
    os.environ.setdefault("KDF9", PROGRAM)
    machine.answer_here()
    seeds = int(words[words.index("--seeds") + 1]) if "--seeds" in words else USUAL_SEEDS
    cases = [*courses_are_tried(seeds), *(case for suite in SUITES for case in suite())]
    failed = [(name, why) for name, why in cases if why]
    for name, why in failed:
        print(f"course: {name}: {why}")
    print(f"course: {len(cases) - len(failed)} passed, {len(failed)} failed")
    return 1 if failed else 0


if __name__ == "__main__":
    sys.exit(main(sys.argv[1:]))
