"""The text of an exercise, as docs/COURSE.md describes it: its chapters, and the fenced blocks in them. What stands where it means nothing is refused with its line."""
import re
from typing import Iterator, List, NamedTuple, NoReturn, Optional, Sequence, Tuple

from kdf9.program import BadInput

# The blocks that mean something, and where: before the solution, in it, and in a wrong solution.
IN_SHEET, IN_SOLUTION, IN_WRONG = ("job", "rules", "case"), ("deck", "job", "change", "case", "word"), ("deck", "job", "change")

KNOWN = {*IN_SHEET, *IN_SOLUTION}

# The blocks that are there to be read.
TO_READ = ("", "sh", "answer", "text", "usercode")

HINTS, SOLUTION, WRONG = "Hints", "Solution", "Wrong: "
FENCE = re.compile(r"(`{3,}|~{3,})\s*(.*)")


class Faulty(BadInput):
    """An exercise has a fault; the text says in which file and line, and what it is."""


class Block(NamedTuple):
    """A fenced block: the line of its fence, its first word, the rest of that line, and its lines."""

    line: int
    word: str
    rest: str
    lines: List[str]


class Chapter(NamedTuple):
    """What stands under a heading of the second level, or before the first: the line and the text of the heading, its lines, and its blocks."""

    line: int
    heading: str
    lines: List[str]
    blocks: List[Block]


class Source:
    """The text of an exercise: the path of its file, and its lines."""

    def __init__(self, path: str, text: str) -> None:
        self.path, self.lines = path, text.replace("\r\n", "\n").split("\n")

    def fail(self, line: int, why: str) -> NoReturn:
        """Refuses the exercise for this reason."""
        raise Faulty(f"{self.path}:{line}: {why}")

    def chapters(self) -> List[Chapter]:
        """The chapters of the text, and the blocks of each."""
        chapters, fence, block = [Chapter(1, "", [], [])], "", None
        for at, line in enumerate(self.lines, 1):
            found = FENCE.match(line)
            if block is not None and block.word in KNOWN and (line.startswith("## ") or found and found[2]):
                self.fail(block.line, f"this block has no {fence} at its end")
            if block is not None and (line.rstrip() != fence):
                block.lines.append(line)
            elif block is not None:
                block = None
            elif found:
                fence, word = found[1], found[2].partition(" ")
                block = Block(at, word[0], word[2].strip(), [])
                chapters[-1].blocks.append(block)
            elif line.startswith("## "):
                chapters.append(Chapter(at, line[3:].strip(), [], []))
                continue
            chapters[-1].lines.append(line)
        if block is not None:
            self.fail(block.line, f"this block has no {fence} at its end")
        self._placed(chapters)
        return chapters

    def _placed(self, chapters: List[Chapter]) -> None:
        """Refuses a block or a heading that stands where it means nothing."""
        solution = next((at for at, chapter in enumerate(chapters) if chapter.heading == SOLUTION), len(chapters))
        for at, chapter in enumerate(chapters):
            if chapter.heading.lower().rstrip(":").split(" ")[0] in ("hint", "hints", "solution", "wrong") and not (
                    chapter.heading in (HINTS, SOLUTION) or chapter.heading.startswith(WRONG) and chapter.heading[len(WRONG):].strip()):
                self.fail(chapter.line, f"## {chapter.heading} isn't a heading here; these are ## Hints, ## Solution, and ## Wrong: with some words")
            if at > solution and not chapter.heading.startswith(WRONG) or chapter.heading.startswith(WRONG) and at < solution:
                self.fail(chapter.line, f"## {chapter.heading} stands on the wrong side of ## Solution: after that there are only the wrong solutions")
            allowed = IN_SHEET if at < solution else IN_SOLUTION if at == solution else IN_WRONG
            for block in chapter.blocks:
                if block.word in KNOWN - set(allowed):
                    self.fail(block.line, f"a block {block.word} can't stand here, but only {' or '.join(allowed)}")
                if block.word not in KNOWN and block.word not in TO_READ:
                    self.fail(block.line, f"a block {block.word} means nothing here; one that is there to be read is text, sh, answer or usercode")

    def chapter(self, chapters: Sequence[Chapter], heading: str) -> Chapter:
        """The only chapter with this heading, or an empty one."""
        found = [chapter for chapter in chapters if chapter.heading == heading]
        if len(found) > 1:
            self.fail(found[1].line, f"there is a second ## {heading}")
        return found[0] if found else Chapter(len(self.lines), "", [], [])

    def only(self, chapters: Sequence[Chapter], *words: str, is_needed: bool = True) -> Optional[Block]:
        """The block of one of these words in some chapters, of which there has to be one."""
        found = [block for chapter in chapters for block in chapter.blocks if block.word in words]
        if len(found) > 1:
            self.fail(found[1].line, f"there is a second block {found[1].word}; one of {', '.join(words)} is enough")
        if not found and is_needed:
            self.fail(chapters[0].line, f"there is no block {' or '.join(words)} here")
        return found[0] if found else None

    def sheet(self) -> str:
        """What students get: the text up to the solution."""
        for at, (line, is_inside) in enumerate(with_fences(self.lines)):
            if not is_inside and line.rstrip() == f"## {SOLUTION}":
                return "\n".join(self.lines[:at]).rstrip() + "\n"
        return "\n".join(self.lines)


def is_kept(chapter: Chapter) -> bool:
    """Whether a chapter isn't handed out."""
    return chapter.heading == SOLUTION or chapter.heading.startswith(WRONG)


def lines_of(block: Block) -> Iterator[Tuple[int, str]]:
    """The lines of a block that aren't blank, each with its number."""
    return ((at, line.strip()) for at, line in enumerate(block.lines, block.line + 1) if line.strip())


def prose(chapter: Chapter) -> str:
    """The words of a chapter outside its blocks, as one line."""
    return " ".join(line.strip() for line, is_inside in with_fences(chapter.lines) if not is_inside and line.strip())


def with_fences(lines: Sequence[str]) -> Iterator[Tuple[str, bool]]:
    """The lines of a text, each with whether it is of a fenced block."""
    fence = ""
    for line in lines:
        found = FENCE.match(line)
        is_end = bool(fence) and line.rstrip() == fence
        if found and not fence:
            fence = found[1]
        yield line, bool(fence)
        if is_end:
            fence = ""
