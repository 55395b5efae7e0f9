"""What the page shows of the documents: the jobs of the tour and the examples, and what is said of each statement of a deck and of each kind of failure."""
import re

from building.rooms import ROOT

FIRST_HOUR, EXAMPLES = "The first hour", "Examples"


def read(path):
    """The text of a file of the repository."""
    return (ROOT / path).read_text(encoding="utf-8")


def jobs_of_first_hour():
    """The jobs of the tour, each with the answer to `run` if the tour has it."""
    tour = read("docs/TOUR.md")
    for name, job in re.findall(r"^```job (\S+)\n(.*?)^```$", tour, re.MULTILINE | re.DOTALL):
        answer = re.search(rf"^```sh\n\./kdf9 run < {re.escape(name)}\n```\n+```answer\n(.*?)^```$", tour, re.MULTILINE | re.DOTALL)
        yield f"{FIRST_HOUR}/{name[:-len('.job')]}", {"group": FIRST_HOUR, "job": job, "args": ["run"], "report": answer and answer[1]}


def jobs_of_examples():
    """The examples in the sequence of docs/EXAMPLES.md, each with its arguments and its report."""
    listed = re.findall(r"`([\w-]+)`", read("docs/EXAMPLES.md"))
    for name in dict.fromkeys(listed):
        if (ROOT / "examples" / f"{name}.job").is_file():
            job, args, report = (read(f"examples/{name}.{part}") for part in ("job", "args", "report"))
            yield f"{EXAMPLES}/{name}", {"group": EXAMPLES, "job": job, "args": args.split(), "report": report}


def failures():
    """What docs/GLOSSARY.md says of each kind of failure, by its name."""
    kinds = re.search(r"kinds of failure: (.*?) \|$", read("docs/GLOSSARY.md"), re.MULTILINE)[1]
    return {name: bare(glossary(name)) for name in re.findall(r"[A-Z]+", kinds)}


def meaning_of_schedule(written):
    """What docs/COURSE.md says of a schedule of an exercise that is written so, such as `after 20`."""
    meanings = dict(re.findall(r"^\| `(\w+).*?` \| (.*?) \|$", section(read("docs/COURSE.md"), "Schedules", "###"), re.MULTILINE))
    kind, *_, number = written.split(" ") * 2
    return re.sub(r"\bN\b", number, bare(meanings[kind]))


def help_of_statements():
    """What the documents say of each statement of a deck: of the orders by their names, of constants, of references, and of the sequence of a deck."""
    usercode = read("docs/USERCODE.md")
    sequence = [said for _, said in re.findall(r"^(\d)\. (.*)$", section(usercode, "The sequence of a deck"), re.MULTILINE)]
    constants = re.findall(r"^\| (`.*?) \| (.*?) \|$", section(usercode, "Constants"), re.MULTILINE)
    places = section(usercode, "References and jumps").strip().split("\n\n")[0]
    return {
        "orders": dict(entries_of_orders()), "sequence": entry(["The sequence of a deck:", *sequence]),
        "constants": entry(["A constant gives a V-store its first value."], "The forms of constants", ["written", "is"], constants), "places": entry([places]),
    }


def entry(said, caption="", heads=(), rows=()):
    """What is said of a statement, as paragraphs and rows of a table, without the marks of the documents."""
    return {"said": [bare(each) for each in said], "caption": caption, "heads": list(heads), "rows": [[bare(cell) for cell in row] for row in rows]}


def bare(text):
    """A text without the marks of the documents around code and words."""
    return " ".join(text.replace("`", "").replace("**", "").split())


def section(text, name, level="##"):
    """The text below the heading of this name and level."""
    return re.search(rf"^{level} {name}\n(.*?)(?=^## |^{level} |\Z)", text, re.MULTILINE | re.DOTALL)[1]


def glossary(word):
    """What docs/GLOSSARY.md says of a word."""
    return dict(re.findall(r"^\| (\w+) \| (.*?) \|$", read("docs/GLOSSARY.md"), re.MULTILINE))[word]


def entries_of_orders():
    """The entries of docs/ORDERS.md by their names, each with its examples."""
    for name, body in re.findall(r"^### `(\S+)`\n\n(.*?)(?=^### |\Z)", read("docs/ORDERS.md"), re.MULTILINE | re.DOTALL):
        said, _, examples = body.partition("| order | before | after |\n|---|---|---|\n")
        rows = re.findall(r"^\| (.*?) \| (.*?) \| (.*?) \|$", examples, re.MULTILINE)
        paragraphs = [each for each in re.split(r"\n\n|\n- ", said.strip()) if each]
        yield name, entry(paragraphs, "Examples", ["order", "before", "after"], rows)
