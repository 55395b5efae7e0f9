"""A question as Markdown, HTML and JSON, without or with its answer."""
import html
import json
from typing import Iterator

from quizzes.question import Question


def title(question: Question) -> str:
    """The heading of a question."""
    return f"Question {question.kind} {question.seed}"


def as_markdown(question: Question, with_answer: bool) -> str:
    """The question as Markdown."""
    return "\n".join(lines_of_markdown(question, with_answer)) + "\n"


def lines_of_markdown(question: Question, with_answer: bool) -> Iterator[str]:
    """The lines of the question as Markdown."""
    yield from (f"# {title(question)}", "", question.task, "")
    for name, text in question.texts.items():
        yield from ([f"{name[0].upper()}{name[1:]}:", ""] if name != "job" else [])
        yield from ("```", text.rstrip("\n"), "```", "")
    yield f"**{question.asked}**"
    if with_answer:
        yield from ("", f"Answer: {question.answer}", "", question.why)


def as_html(question: Question, with_answer: bool) -> str:
    """The question as a page, whose answer is opened by a click if it is there."""
    head = f'<!DOCTYPE html>\n<html lang="en"><head><meta charset="utf-8"><title>{html.escape(title(question))}</title></head><body>'
    parts = [head, f"<h1>{html.escape(title(question))}</h1>", f"<p>{html.escape(question.task)}</p>"]
    for name, text in question.texts.items():
        parts += ([f"<h2>{html.escape(name[0].upper() + name[1:])}</h2>"] if name != "job" else []) + [f"<pre>{html.escape(text)}</pre>"]
    parts.append(f"<p><strong>{html.escape(question.asked)}</strong></p>")
    if with_answer:
        parts.append(f"<details><summary>Answer</summary><p>{html.escape(question.answer)}</p><p>{html.escape(question.why)}</p></details>")
    return "\n".join([*parts, "</body></html>"]) + "\n"


def as_json(question: Question, with_answer: bool) -> str:
    """The question as JSON."""
    told = {"kind": question.kind, "seed": question.seed, "task": question.task, "texts": question.texts, "asked": question.asked}
    return json.dumps({**told, **({"answer": question.answer, "why": question.why} if with_answer else {})}, indent=1) + "\n"
