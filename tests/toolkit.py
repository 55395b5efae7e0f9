"""What the tests of the tools share: runs of ./kdf9, jobs, the examples and the documents."""
import collections
import os
import pathlib
import subprocess
import sys
from concurrent.futures import ThreadPoolExecutor

ROOT = pathlib.Path(__file__).resolve().parent.parent
Run = collections.namedtuple("Run", "status out err")

# The tools are tried with the python3 that runs this, which keeps their compiled modules as it does for a user. Each start waits for the program that is proved.
ENVIRONMENT = {
    **os.environ, "PATH": os.path.dirname(sys.executable) + os.pathsep + os.environ["PATH"], "PYTHONDONTWRITEBYTECODE": "", "KDF9_PROVED": "1",
}

PLAIN = "PROGRAM; 1; J1; FINISH;"
HEAD = f"KDF9 JOB 1\nSLOT 0\nSTORE 64\nDECK\n{PLAIN}\nENDDECK\n"
TAIL = "SCHEDULE\nORDERS 10\nENDJOB\n"


def kdf9(words, text):
    """A run of ./kdf9 by these words over this text."""
    whole = [ROOT / "kdf9", *words]
    done = subprocess.run(whole, input=text.encode("latin-1"), capture_output=True, cwd=ROOT, env=ENVIRONMENT, check=False)
    return Run(done.returncode, done.stdout.decode("latin-1"), done.stderr.decode("latin-1"))


def side_by_side(runs):
    """Runs of ./kdf9, each of these words over a text, some at once; what each came to, in their order."""
    with ThreadPoolExecutor() as pool:
        return list(pool.map(lambda run: kdf9(*run), runs))


def job_of_deck(deck):
    """A job of this deck alone: its first line is line 5 of the job."""
    return f"KDF9 JOB 1\nSLOT 0\nSTORE 32\nDECK\n{deck}\nENDDECK\n{TAIL}"


def document(name):
    """The text of a page of the documents."""
    return (ROOT / "docs" / name).read_text(encoding="utf-8")


def is_more(path):
    """Whether the text of an example is more than a job, as what resume and check read is."""
    return path.with_suffix(".args").read_text(encoding="ascii") in ("resume\n", "check\n")


def examples():
    """The examples, and the cases that have a job of their own: the name of each and its job, if it is no more than a job."""
    for folder in ("examples", "tests/cases"):
        for path in sorted((ROOT / folder).glob("*.job")):
            if not is_more(path):
                yield path.stem, path.read_text(encoding="latin-1")
    for path in sorted((ROOT / "examples").glob("*.make")):
        yield path.stem, subprocess.run([path], capture_output=True, check=True).stdout.decode("latin-1")


def example_report(name):
    """The report of the example of this name."""
    return (ROOT / "examples" / f"{name}.report").read_text(encoding="latin-1")


def refused(run):
    """Whether a tool refused its input as it should: with one line, status 1 and no output."""
    return run.status == 1 and not run.out and run.err.count("\n") == 1
