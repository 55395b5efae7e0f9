"""Reads the file of an exercise, as docs/COURSE.md describes it. A faulty one is refused with its line."""
import pathlib
import re
from typing import Iterator, List, Sequence

from courses import machine
from courses.cases import case_of, refuse_alike
from courses.chapters import HINTS, SOLUTION, WRONG, Block, Chapter, Faulty, Source, is_kept, lines_of, prose
from courses.exercise import Exercise, Wrong
from courses.rules import rules_of
from kdf9.fault import fault_of
from kdf9.job import join_lines
from kdf9.program import ROOT, BadInput

FILE = re.compile(r"(\d+)-[a-z0-9-]+\.md")

# The SHA-256 of a teacher's word, in hexadecimal digits.
HASHED = re.compile(r"[0-9a-f]{64}")


def course(name: str) -> List[Exercise]:
    """The exercises of a course: of the folder of this name, or of that in courses/."""
    folder = pathlib.Path(name)
    if not folder.is_dir() and "/" not in name and (ROOT / "courses" / name).is_dir():
        folder = ROOT / "courses" / name
    if not folder.is_dir():
        raise BadInput(f"{name}: no such folder, and courses/ has no course of this name")
    files = sorted((int(FILE.fullmatch(path.name)[1]), path) for path in folder.iterdir() if FILE.fullmatch(path.name))
    if not files:
        raise BadInput(f"{name}: no file of this folder is an exercise: its name would be a number, - and a title, such as 01-five-and-seven.md")
    for (number, path), (_, other) in zip(files, files[1:]):
        if number == int(FILE.fullmatch(other.name)[1]):
            raise BadInput(f"{other}: {path.name} has the number {number} too")
    return [exercise(path) for _, path in files]


def exercise(path: pathlib.Path) -> Exercise:
    """The exercise of a file."""
    try:
        text = path.read_bytes().decode("utf-8")
    except UnicodeDecodeError as why:
        line = 1 + why.object[:why.start].count(10)
        raise Faulty(f"{path}:{line}: this isn't UTF-8") from None
    return Reader(Source(str(path), text)).exercise()


class Reader:
    """Reads the text of an exercise."""

    def __init__(self, source: Source) -> None:
        self._source, self._fail = source, source.fail

    def exercise(self) -> Exercise:
        """The exercise."""
        front, *others = self._source.chapters()
        title = self._title(front)
        sheet = [front, *(each for each in others if not is_kept(each))]
        job, rules = self._source.only(sheet, "job"), self._source.only(sheet, "rules", is_needed=False)
        made = rules_of(self._source, rules)
        self._sound(job)
        solution = self._source.chapter(others, SOLUTION)
        cases = [case_of(self._source, block, made, True) for chapter in sheet for block in chapter.blocks if block.word == "case"]
        cases += [case_of(self._source, block, made, False) for block in solution.blocks if block.word == "case"]
        if not cases:
            self._fail(job.line, "the exercise has no case: a block ```case with lines give and due")
        refuse_alike(self._source, cases)
        number, name = int(FILE.fullmatch(pathlib.Path(self._source.path).name)[1]), pathlib.Path(self._source.path).stem
        made_of = Exercise(self._source.path, number, name, title, self._source.sheet(), tuple(job.lines), made, tuple(cases), tuple(self._hints(others)))
        return self._solved(made_of, solution, others) if solution.heading else made_of

    def _solved(self, of: Exercise, solution: Chapter, others: Sequence[Chapter]) -> Exercise:
        """An exercise with its solution and its wrong solutions."""
        answer = self._source.only([solution], "deck", "job", "change")
        solved = self._text(answer, join_lines(of.job), "the starting job")
        wrong = tuple(self._wrong(chapter, solved) for chapter in others if chapter.heading.startswith(WRONG))
        return of._replace(solution=solved, solution_line=answer.line, answers=prose(solution), wrong=wrong, opens=self._word(solution))

    def _word(self, solution: Chapter) -> str:
        """The hash of the teacher's word, or nothing."""
        block = self._source.only([solution], "word", is_needed=False)
        told = list(lines_of(block)) if block else []
        if block and not (len(told) == 1 and HASHED.fullmatch(told[0][1])):
            self._fail(block.line, "a block word has the SHA-256 of the teacher's word: 64 hexadecimal digits, as sha256sum writes them")
        return told[0][1] if told else ""

    def _sound(self, job: Block) -> None:
        """Refuses a starting job that has a fault."""
        text = join_lines(job.lines)
        answer = machine.ask(["asm", "0"], text)
        if answer.status in (2, 3):
            found = fault_of(text, "asm", "0")
            self._fail(job.line + found.line, f"the starting job has a fault: {found.name}: {found.subject}")

    def _title(self, front: Chapter) -> str:
        """The title of the exercise."""
        heading = next(((at, line) for at, line in enumerate(front.lines, 1) if line.strip()), (1, ""))
        if not re.fullmatch(r"# \S.*", heading[1]):
            self._fail(heading[0], "the first line has to be the title: # and a space, and then some words")
        return heading[1][2:].strip()

    def _hints(self, chapters: Sequence[Chapter]) -> Iterator[str]:
        """The hints, each an item of a list."""
        for chapter in chapters:
            if chapter.heading != HINTS:
                continue
            hint: List[str] = []
            for at, line in enumerate(chapter.lines, chapter.line + 1):
                if re.match(r"(?:[-*]|\d+\.) ", line):
                    if hint:
                        yield " ".join(hint)
                    hint = [line.split(" ", 1)[1].strip()]
                elif line.strip() and not hint:
                    self._fail(at, "a hint begins with - and a space")
                elif line.strip():
                    hint.append(line.strip())
            if not hint:
                self._fail(chapter.line, "there is no hint here")
            yield " ".join(hint)

    def _text(self, block: Block, changed: str, of_what: str) -> str:
        """The text of a solution: that of its block, or the one that its changes make of another."""
        if block.word != "change":
            return "\n".join([*block.lines, ""])
        if not list(lines_of(block)):
            self._fail(block.line, "this block has no change: OLD => NEW")
        for at, line in lines_of(block):
            old, arrow, new = line.partition("=>")
            old, new = (each.strip().replace("\\n", "\n") for each in (old, new))
            if not arrow or not old:
                self._fail(at, f"a change is written OLD => NEW: {line}")
            if changed.count(old) != 1:
                self._fail(at, f"{of_what} has {old} {changed.count(old)} times, and a change needs a text that is there once")
            changed = changed.replace(old, new)
        return changed

    def _wrong(self, chapter: Chapter, solution: str) -> Wrong:
        """A wrong solution and its remark."""
        block = self._source.only([chapter], "deck", "job", "change")
        remark = prose(chapter)
        if not remark:
            self._fail(chapter.line, "this wrong solution has no remark: some words after its block")
        return Wrong(chapter.heading[len(WRONG):].strip(), self._text(block, solution, "the solution"), block.line, remark)
