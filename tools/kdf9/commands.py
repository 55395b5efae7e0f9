"""The table of the commands of the program, in the order of its usage line: what each takes and reads, what it does, and an example.

`./kdf9 --help`, the manual page and the completions are made from it and from the table of the tools. tests/install compares it with the program.
"""
from kdf9.tools import Tool

COMMANDS = {command.name: command for command in (
    Tool(
        "run", "< JOB",
        "Runs a job under Director and writes its report.",
        "./kdf9 run < examples/adds-5-and-7.job",
    ),
    Tool(
        "alone", "K < JOB",
        "Runs the program of slot K by itself and writes its section of the report.",
        "./kdf9 alone 0 < examples/reads-tape.job",
    ),
    Tool(
        "asm", "K < JOB",
        "Assembles the deck of slot K and lists its words.",
        "./kdf9 asm 0 < examples/reads-tape.job",
    ),
    Tool(
        "make", "N",
        "Makes a job of four slots from the number N, runs it, and writes a summary.",
        "./kdf9 make 7",
    ),
    Tool(
        "save", "< JOB",
        "Runs a job and puts the run away: it writes a snapshot.",
        "./kdf9 save < examples/puts-a-sum-away.job",
    ),
    Tool(
        "resume", "< SNAPSHOT",
        "Goes on from a snapshot with further lines of the schedule, and writes the report of the whole run.",
        "./kdf9 resume < examples/goes-on-with-a-sum.job",
    ),
    Tool(
        "check", "< JOB-AND-REPORT",
        "Says whether a report has the journal of its job, and where it first goes wrong.",
        "./kdf9 check < examples/finds-a-changed-digit.job",
    ),
    Tool(
        "watch", "K W < JOB",
        "Runs a job, and says when the program of slot K comes to word W.",
        "./kdf9 watch 0 2 < examples/stops-at-a-loop.job",
    ),
)}
