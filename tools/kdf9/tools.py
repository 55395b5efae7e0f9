"""The table of the tools: what each is called, what it takes, what it does, and an example.

`--help` shows it. `./kdf9` and the list in docs/TOOLS.md are compared with it by tests/tools.
"""
import os
from typing import NamedTuple

# How a user calls ./kdf9: one that comes from a package is called by its name alone, and says so by this variable.
NAME = os.environ.get("KDF9_NAME", "./kdf9")


class Tool(NamedTuple):
    """A tool: its name, its arguments as its usage has them, what it does, in a sentence, and an example that works as it is printed, in the folder
    of `./kdf9`.
    """

    name: str
    arguments: str
    does: str
    example: str

    @property
    def usage(self) -> str:
        """How the tool is used, in one line."""
        return f"{NAME} {self.name} {self.arguments}"

    @property
    def shown_example(self) -> str:
        """The example as a user types it."""
        return self.example.replace("./kdf9", NAME)


TOOLS = {tool.name: tool for tool in (
    Tool(
        "explain", "JOB [COMMAND] [--strict]",
        "Runs a job, passes on the output and the status, and says on standard error what is wrong, where and why.",
        "./kdf9 explain examples/adds-to-nothing.job",
    ),
    Tool(
        "steps", "JOB [SLOT [FROM [TO]]] [--run] [--at STATEMENT] [--watch WORD ..] [--json]",
        "Writes each order of a program as it is obeyed, with its statement and what it changed; or, with --at, each time that the program comes to a statement.",
        "./kdf9 steps examples/reads-tape.job 0 2",
    ),
    Tool(
        "listing", "JOB [SLOT] [--json]",
        "Writes the image of a deck next to its text, with the names of its words.",
        "./kdf9 listing examples/walks-over-a-table.job",
    ),
    Tool(
        "schedule", "JOB [DEVICE=N ..] [--after N] [--every N] [--speed DEVICE=A+B ..] [--speeds NAME]",
        "Writes a job again with a schedule in which each transfer ends a fixed number of calls after it began, or by its length.",
        "./kdf9 schedule examples/adds-cards.job --after 7 4=30",
    ),
    Tool(
        "same", "JOB [OTHER] [--json]",
        "Says of each program of a job whether it comes to the same alone, or in another job.",
        "./kdf9 same examples/adds-cards-while-a-tape-is-copied.job",
    ),
    Tool(
        "explore", "JOB [--calls T] [--runs N] [--swap] [--mode naive] [--out FOLDER]",
        "Finds what can come of a job over every schedule: results, deadlocks, and who can starve, each with a job that shows it.",
        "./kdf9 explore examples/two-programs-share-a-punch.job",
    ),
    Tool(
        "stats", "JOB [OTHER ..] [--json] [--csv]",
        "Tells how many calls the programs and devices of a run had for what; of several jobs side by side.",
        "./kdf9 stats examples/computes-while-it-reads.job",
    ),
    Tool(
        "study", "PLAN [--out FOLDER] [--plot] [--part I/N] [--join FOLDER] [--dask ADDRESS] [--job N]",
        "Runs a job with all combinations of some values, and keeps a row of measures for each run.",
        "./kdf9 study examples/study/degree.json",
    ),
    Tool(
        "mark", "COURSE [HAND-INS] [--csv] [--json] [--html] [--try] [--seeds N] [--hand-out FOLDER]",
        "Marks what a class handed in for the exercises of a course, tries a course itself, or writes what students get.",
        "./kdf9 mark machine --try",
    ),
    Tool(
        "quiz", "KIND [--seed N] [--answers] [--json] [--html]",
        "Writes a question of homework that a seed makes, and its answer, which is that of the machine.",
        "./kdf9 quiz nest --seed 7 --answers",
    ),
    Tool(
        "picture", "[--text] < REPORT",
        "Draws the journal of a report, as SVG or, with --text, for a terminal.",
        "./kdf9 picture --text < examples/two-programs-share-a-punch.report",
    ),
    Tool(
        "json", "< REPORT",
        "Writes a report as JSON.",
        "./kdf9 json < examples/adds-5-and-7.report",
    ),
    Tool(
        "report", "< JSON",
        "Writes the report that a JSON text is.",
        "./kdf9 json < examples/adds-5-and-7.report | ./kdf9 report",
    ),
    Tool(
        "page", "[--course COURSE] > FILE",
        "Writes the machine, an editor and the examples as one page for a browser; with a course, also its exercises.",
        "./kdf9 page > kdf9.html",
    ),
    Tool(
        "replay", "JOB > FILE",
        "Writes the same page with a job in it, which opens at the run of that job.",
        "./kdf9 replay examples/reads-tape.job > kdf9.html",
    ),
    Tool(
        "proofs", "> FILE",
        "Writes what is proved as one page for a browser: the theorem, its definitions and all contracts, with each word a link to what it means.",
        "./kdf9 proofs > proofs.html",
    ),
    Tool(
        "lsp", "[--faults FILE ..]",
        "Serves editors: faults as they are typed, help, names and form of decks and jobs; or, with --faults, writes the faults of files.",
        "./kdf9 lsp --faults examples/missing-reference.job",
    ),
    Tool(
        "dap", "< MESSAGES",
        "Serves editors that debug a job: breakpoints, steps forward and back, watched words.",
        "printf 'Content-Length: 51\\r\\n\\r\\n{\"seq\":1,\"type\":\"request\",\"command\":\"initialize\"}' | ./kdf9 dap",
    ),
    Tool(
        "lib", "FOLDER",
        "Writes the machine as a library for programs in C, Python and JavaScript, and says how to use it.",
        "./kdf9 lib kdf9-library",
    ),
    Tool(
        "clean", "[--show] [--json]",
        "Gives back the disk that only makes the next proof shorter; the program and the page stay.",
        "./kdf9 clean --show",
    ),
    Tool(
        "package", "[FOLDER]",
        "Makes packages of the program, the tools and the documents, as a .tar.gz and a .deb.",
        "./kdf9 package packages",
    ),
)}
