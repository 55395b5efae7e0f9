"""A table of marks as text, CSV, JSON and HTML."""
import csv
import html
import io
import json
import re
from typing import Dict, Iterator, List, Sequence, Tuple

from courses.exercise import Exercise
from courses.grading import Row
from courses.marking import NOTHING, Verdict
from kdf9.words import count, in_columns

# A cell that begins so would be a formula for a spreadsheet.
FORMULA = re.compile(r"[=+\-@\t\r]")

STYLE = """body { font: 16px/1.4 sans-serif; margin: 2em; color: #222; background: #fff; }
table { border-collapse: collapse; }
th, td { border: 1px solid #888; padding: .2em .6em; text-align: right; vertical-align: top; }
th:first-child, td.said { text-align: left; }
td.all { background: #dff0d8; } td.none { background: #f2dede; }
td.said { font-size: 85%; max-width: 50em; }"""


def said(verdict: Verdict) -> str:
    """What is said of a hand-in, in a line: the remark, and what came in the first run that isn't right."""
    return " / ".join(words for words in (verdict.remark, verdict.first) if words)


def as_text(exercises: Sequence[Exercise], rows: Sequence[Row]) -> str:
    """The table for a terminal, and the remarks below it."""
    heads = ["", *(str(exercise.number) for exercise in exercises), "sum"]
    cells = [[row.name, *(f"{each.marks:g}" for each in row.verdicts), f"{row.total:g}"] for row in rows]
    lines = in_columns([heads, *cells])
    for row in rows:
        wrong = [(exercise, verdict) for exercise, verdict in zip(exercises, row.verdicts) if not verdict.is_right]
        lines += ["", row.name] if wrong else []
        lines += lines_of(wrong)
    return "".join(f"{line}\n" for line in lines)


def lines_of(wrong: Sequence[Tuple[Exercise, Verdict]]) -> Iterator[str]:
    """What is said of the hand-ins of a student that aren't right. What is said of several alike is said once, at the first of them."""
    alike: Dict[str, List[Tuple[Exercise, Verdict]]] = {}
    for exercise, verdict in wrong:
        alike.setdefault(said(verdict), []).append((exercise, verdict))
    for text, ((exercise, verdict), *others) in alike.items():
        head = spans([exercise.number, *(each.number for each, _ in others)]) if others else f"{exercise.number} {exercise.title}"
        yield f"  {head}: {'' if others else of_runs(verdict)}{text}"


def spans(numbers_in_order: Sequence[int]) -> str:
    """Numbers in words: `1, 3 to 5`."""
    runs: List[List[int]] = []
    for number in numbers_in_order:
        if runs and number == runs[-1][-1] + 1:
            runs[-1].append(number)
        else:
            runs.append([number])
    return ", ".join(f"{run[0]} to {run[-1]}" if len(run) > 2 else ", ".join(map(str, run)) for run in runs)


def of_runs(verdict: Verdict) -> str:
    """How many runs are right, in words."""
    return "" if verdict.remark == NOTHING else f"{verdict.right} of {count(verdict.of, 'run')}; "


def cell(text: str) -> str:
    """A text as a cell that no spreadsheet takes for a formula."""
    return f"'{text}" if FORMULA.match(text) else text


def as_csv(exercises: Sequence[Exercise], rows: Sequence[Row]) -> str:
    """The table as CSV: marks and their sum, and then the remarks."""
    text = io.StringIO()
    table = csv.writer(text, lineterminator="\n")
    names = [exercise.name for exercise in exercises]
    table.writerow(["student", *names, "sum", *(f"{name} remark" for name in names)])
    for row in rows:
        table.writerow([cell(row.name), *(each.marks for each in row.verdicts), row.total, *(cell(said(each)) for each in row.verdicts)])
    return text.getvalue()


def as_json(exercises: Sequence[Exercise], rows: Sequence[Row]) -> str:
    """The table as JSON: the exercises, and the students with all that is known of each hand-in."""
    told = {
        "exercises": [{"number": exercise.number, "name": exercise.name, "title": exercise.title, "marks": exercise.rules.marks, "runs": exercise.runs} for exercise in exercises],
        "students": [
            {"name": row.name, "sum": row.total, "exercises": [
                {"number": exercise.number, "marks": each.marks, "right": each.right, "of": each.of, "remark": each.remark, "first": each.first}
                for exercise, each in zip(exercises, row.verdicts)
            ]} for row in rows
        ],
    }
    return json.dumps(told, indent=1) + "\n"


def numbers(rows: Sequence[Row]) -> List[str]:
    """The numbers by which a table on the wall tells the students: those in their names if all are different, or else from 1 on."""
    found = [re.findall(r"\d+", row.name) for row in rows]
    firsts = [str(int(each[0][:9])) if each else "" for each in found]
    return firsts if "" not in firsts and len(set(firsts)) == len(firsts) else [str(at) for at in range(1, len(rows) + 1)]


def as_html(exercises: Sequence[Exercise], rows: Sequence[Row], title: str) -> str:
    """The table as a page for the wall: by numbers, without names."""
    return "".join(f"{line}\n" for line in lines_of_page(exercises, rows, title))


def lines_of_page(exercises: Sequence[Exercise], rows: Sequence[Row], title: str) -> Iterator[str]:
    """The lines of the page."""
    yield f'<!DOCTYPE html>\n<html lang="en"><head><meta charset="utf-8"><title>{html.escape(title)}: marks</title>\n<style>\n{STYLE}\n</style></head><body>'
    yield f"<h1>{html.escape(title)}</h1>\n<table>\n<tr><th>No.</th>" + "".join(
        f'<th title="{html.escape(exercise.title)}">{exercise.number}</th>' for exercise in exercises) + "<th>sum</th></tr>"
    told = list(zip(numbers(rows), rows))
    for number, row in told:
        cells = "".join(f'<td class="{"all" if each.is_right else "" if each.right else "none"}">{each.marks:g}</td>' for each in row.verdicts)
        yield f"<tr><th>{number}</th>{cells}<td>{row.total:g}</td></tr>"
    yield "</table>\n<h2>Remarks</h2>\n<table>\n<tr><th>No.</th><th>exercise</th><th>remark</th></tr>"
    for number, row in told:
        for exercise, verdict in zip(exercises, row.verdicts):
            if not verdict.is_right:
                yield f'<tr><th>{number}</th><td>{exercise.number}</td><td class="said">{html.escape(said(verdict))}</td></tr>'
    yield "</table>\n</body></html>"
