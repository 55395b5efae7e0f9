"""What comes after a job in one text: a snapshot, with further lines of its schedule, or a report that is to be checked."""
from kdf9.job import join_lines
from kdf9.program import ask
from kdf9.report import HEADER, length_of_journal
from kdf9.tables import table

JOURNAL, END, ENDJOB = "JOURNAL", "ENDSNAPSHOT", "ENDJOB"

# The most bytes of a job that `run` reads.
MOST_BYTES = table("job")["most"]["bytes"]

# The commands over a text that begins with a job, and how the line after the job begins if one of the last two reads it.
RUN, RESUME, CHECK = "run", "resume", "check"
AFTER_JOB = {JOURNAL: RESUME, "KDF9 REPORT": CHECK}


def length_of_front(lines):
    """How many lines the job has at the front of a text, up to the ENDJOB of its schedule; all of them if it has none."""
    at = 0
    while at < len(lines) and lines[at] != "SCHEDULE":
        at = lines.index("ENDDECK", at) if lines[at] == "DECK" and "ENDDECK" in lines[at:] else at + 1
    return lines.index(ENDJOB, at) + 1 if ENDJOB in lines[at:] else len(lines)


def command_of(lines):
    """The command that reads these lines, by the line after the job."""
    after = lines[length_of_front(lines):][:1]
    return next((command for begins, command in AFTER_JOB.items() if after and after[0].startswith(begins)), RUN)


def numbers_of_joined(lines):
    """The numbers of the lines of which a snapshot without a fault and its further lines make a job."""
    front = length_of_front(lines)
    more = lines.index(END, lines.index("SEAL", front)) + 1
    return [*range(1, front), *range(more + 1, len(lines) + 1)]


def due_in(lines, number):
    """The line of this number in the snapshot of the front job; nothing if it has no such line, or no snapshot."""
    answer = ask(["save"], join_lines(lines[:length_of_front(lines)]))
    saved = answer.text.split("\n")[:-1]
    return saved[number - 1] if answer.status == 0 and number <= len(saved) else ""


def entry_due(front, number):
    """The entry of this number in the journal of a job, or the first line of a report for number 0. It is nothing if the journal ends before,
    and None if the job is larger than `run` takes.
    """
    if number == 0:
        return HEADER
    answer = ask(["run"], join_lines(front))
    own = answer.text.split("\n")
    if answer.status:
        return None
    return own[number] if number < length_of_journal(own) else ""
