"""Tries the tools that run a job in other ways: schedule, same, and steps --run. Each is tried on every example."""
import os
import re
import subprocess
import tempfile
from concurrent.futures import ThreadPoolExecutor

from toolkit import ENVIRONMENT, HEAD, ROOT, examples, kdf9, refused, side_by_side

# This program asks whether its device is busy, so the answer depends on the schedule.
ASKS = """KDF9 JOB 1
SLOT 2
STORE 64
DECK
PROGRAM V0; V0 = Q0/32/33;
  SET 2; SET 5; OUT; V0; =Q1; =C1; PRQ1;
  BUSYQ1; J1TR; ZERO; OUT;
1; E32; ZERO; OUT;
FINISH;
ENDDECK
DEVICE 3 TR
+ABCDEFGHIJKLMNOP
SCHEDULE
ORDERS 30
ENDJOB
"""

# The arguments of schedule, and the lines that it has to write for ASKS.
SCHEDULES = [
    (["--after", "0"], "ORDERS 8 END 3 ORDERS 22"), (["--after", "3"], "ORDERS 11 END 3 ORDERS 19"), (["3=9"], "ORDERS 17 END 3 ORDERS 13"),
    (["--after", "2", "--every", "5"], "ORDERS 13 MOVE 3 1 ORDERS 5 MOVE 3 1 END 3 ORDERS 12"), (["--after", "22"], "ORDERS 30"),
]

# How many orders come between transfers: two numbers, by no rule; and many numbers, all of them in a second round once more.
UNEVEN = [
    ("two distances by no rule", [3, 3, 20, 3, 20, 20, 20, 20, 3, 3, 20, 3, 20, 20, 3, 20], 1),
    ("many distances in two rounds", [9, 37, 55, 52, 49, 5, 17, 8, 32, 49, 29, 31, 42, 25, 51, 14, 7, 32, 2, 58, 54, 25, 28, 39], 2),
]

# The schedule of ASKS in one job and in another, and what same says.
SAME = [
    (["--after", "0"], None, "slot 2: the same\n"),
    (["--after", "7"], None, "slot 2: the same after 8 orders, except for the transfer in flight of device 3; order 9 asked, and was answered 1 in {} and 0 alone\n"),
    (["--after", "99"], ["--after", "80"], "slot 2: the same after 10 orders\n"),
    (["--after", "7"], ["--after", "9"], "slot 2: the same\n"),
    (["--after", "7"], ["--after", "0"], "slot 2: the same after 8 orders; order 9 asked, and was answered 1 in {} and 0 in {}\n"),
]

# This program asks the installation's service, which exchanges the half words.
SERVED = """KDF9 JOB 1
SLOT 1
STORE 32
DECK
PROGRAM; SET 7; SETB100; OUT; SET 9; OUT; ZERO; OUT; FINISH;
ENDDECK
SERVICE
DEVICE 3 TP
SCHEDULE
CLOCK 5
ORDERS 10
ENDJOB
"""

# A program that waits for the pool: the example, the orders that are shown, and what their lines have.
WAITS = [
    ("two-programs-share-a-punch", ("6", "13"), [
        "calls 17 to 45: held up from call 17 by the pool, which had no free TP; slot 0 obeyed 6 orders; 21 calls idle; END 9 after call 26; "
        "END 9 after call 42; slot 0 gave back device 9 at call 43; slot 0 ended at call 45\n",
        "pool 9 TP: HELD PLACE 0 FLAG 0; takes device 9 from the pool\n", "pool 9 TP: FREE PLACE 1 FLAG 0; gives device 9 back to the pool\n",
    ]),
    ("waits-until-the-other-fails", ("6", "6"), ["END 9 after call 30; slot 0 failed at call 31\n", "takes device 9 from the pool\n"]),
]

BAD_INPUT = [
    (["schedule", "-", "4=3"], ASKS, "-: the job has no device 4"),
    (["schedule", "-"], ASKS.replace("SET 2", "SETT 2"), "-:6:3: UnknownOrder: SETT 2"),
    (["schedule", "-", "--after", "20000000", "--every", "1"], ASKS.replace("ORDERS 30", "ORDERS 700000"), "-: the schedule would have more than 500000 lines"),
    (["same", "-", "no/such/file"], ASKS, "no/such/file: No such file"),
    (["same", "-"], HEAD, "-:7:1: BadLine: the job ends here"),
    (["same", "-", "examples/adds-cards.job"], ASKS, "examples/adds-cards.job: no slot has the same program as a slot of -"),
    (["steps", "-", "--run", "--watch", ""], ASKS, "-: slot 2 has no word "),
    (["steps", "-", "2", "--watch", "V1"], ASKS, "-: slot 2 has no word V1; a word has its name in the deck, such as V0 or Y0, or is En with an address from 0 to "),
    (["steps", "-", "2", "12", "--run"], ASKS, "-: the program obeys only 10 orders in this run, so there is no order 12"),
]


def schedule_of(text):
    """The lines of a job's schedule, in one line."""
    return " ".join(text[text.rindex("\nSCHEDULE\n") + 10:].split("\n")[:-2])


def schedules_are_written():
    for words, due in SCHEDULES:
        run = kdf9(["schedule", "-", *words], ASKS)
        yield f"schedule {' '.join(words)}", None if schedule_of(run.out) == due and not run.status else f"{run} in place of {due}"
    clock = kdf9(["schedule", "-", "--after", "5"], ASKS.replace("ORDERS 30", "ORDERS 4\nCLOCK 9\nEND 3\nMOVE 3 1\nORDERS 6\nCLOCK 10\nORDERS 20"))
    due = "ORDERS 4 CLOCK 9 ORDERS 6 CLOCK 10 ORDERS 3 END 3 ORDERS 17"
    yield "a schedule keeps the clock", None if schedule_of(clock.out) == due else f"{clock} in place of {due}"


def transfer_is_late(text, delay):
    """What is wrong with the schedule of a job whose transfers all have to end this many calls after they began; or None."""
    calls, begun, over = 0, {}, {}
    for line in kdf9(["run"], text).out.split("\n"):
        word, *rest = line.split(" ")
        if word == "START":
            begun[rest[1]] = calls
        elif word == "END" and rest[0] in begun:
            over[rest[0]] = calls - begun.pop(rest[0])
        elif word in ("RAN", "IDLE"):
            calls += int(rest[-1])
        elif word in ("LOV", "BUSY", "WAIT"):
            calls += 1
        if any(taken != delay for taken in over.values()):
            return f"transfers took {over}"
    late = {device: call for device, call in begun.items() if call + delay < calls}
    return f"transfers didn't end: {late}" if late else None


def reads_unevenly(lengths, rounds):
    """A job whose program obeys as many orders after its transfers as these numbers say, one after the other, and does so this often."""
    reads = " ".join(f"PRQ1; INTQ1; {'DUMMY; ' * length}\n" for length in lengths)
    deck = f"PROGRAM V0; V0 = Q0/1952/1952; SET 2; SET 5; OUT; V0; =Q1; =C1;\n{'JSP1; ' * rounds}ZERO; OUT;\nP1; {reads}EXIT 1; FINISH;"
    return f"KDF9 JOB 1\nSLOT 0\nSTORE 2048\nDECK\n{deck}\nENDDECK\nDEVICE 2 TR\n+ABC\nSCHEDULE\nORDERS 20000\nENDJOB\n"


def punches(devices):
    """A job whose program punches areas of 1 to 9 words, one after the other, and waits for each transfer; with these lines of devices."""
    deck = (
        "PROGRAM V2; V0 = Q0/32/32; V1 = Q0/0/1; V2 = Q9/0/0; SET 1; SET 5; OUT; V0; =Q1; =C1; V2; =Q2;\n"
        "1; PWQ1; INTQ1; V1; =+Q1; DC2; J1C2NZ; ZERO; OUT; FINISH;"
    )
    return f"KDF9 JOB 1\nSLOT 0\nSTORE 64\nDECK\n{deck}\nENDDECK\n{devices}SCHEDULE\nORDERS 2000000\nENDJOB\n"


def times_of_transfers(text):
    """How many calls each transfer of a job took, in the sequence of their ends, and the state of its program."""
    calls, begun, times, report = 0, {}, [], kdf9(["run"], text).out
    for line in report.split("\n"):
        word, *rest = line.split(" ")
        if word == "START":
            begun[rest[1]] = calls
        elif word == "END":
            times.append(calls - begun.pop(rest[0]))
        elif word in ("RAN", "IDLE"):
            calls += int(rest[-1])
        elif word in ("LOV", "BUSY", "WAIT"):
            calls += 1
    return times, re.search(r"^STATE (.*)$", report, re.MULTILINE)[1]


# The devices of a job that punches, the arguments of schedule, and how long a transfer of so many words has to take.
SPEEDS = [
    ("DEVICE 3 TP\n", ["--speed", "3=7+5"], lambda words: 7 + 5 * words), ("DEVICE 3 TP\n", ["--speed", "3=9+0"], lambda words: 9),
    ("DEVICE 3 TP\n", ["--speed", "3=0+1", "--every", "4"], lambda words: words), ("DEVICE 3 TP\n", ["--speed", "3=7+5", "3=4"], lambda words: 4),
    ("DEVICE 3 TP\n", ["--speed", "3=7+5", "--speed", "3=1+2"], lambda words: 1 + 2 * words), ("DEVICE 3 TP\n", ["--speeds", "kdf9"], lambda words: 12121 * words),
    ("DEVICE 3 TP\n", ["--speeds", "kdf9", "--speed", "3=2+2"], lambda words: 2 + 2 * words), ("POOL\nDEVICE 9 TP\n", ["--speed", "9=3+2"], lambda words: 3 + 2 * words),
    ("DEVICE 3 TP\nDEVICE 4 TP\n", ["--speed", "4=3+2", "--after", "6"], lambda words: 6),
]


def transfers_go_by_their_lengths():
    """A transfer of a device that has a speed takes as long as its area has words."""
    for devices, words, taken in SPEEDS:
        run = kdf9(["schedule", "-", *words], punches(devices))
        found = times_of_transfers(run.out) if run.status == 0 else run
        yield f"a schedule with {' '.join(words)}", None if found == ([taken(length) for length in range(1, 10)], "ENDED") else f"{found}"
    cards = punches("DEVICE 3 CR\n+A\n" + "+B\n" * 9).replace("SET 1; SET 5", "SET 4; SET 5").replace("PWQ1", "CRQ1").replace("Q0/32/32", "Q0/32/39")
    found = times_of_transfers(kdf9(["schedule", "-", "--speed", "3=0+2"], cards).out)
    yield "a card has ten words at most", None if found == ([16, 18] + [20] * 7, "ENDED") else f"{found}"
    rewinds = "PROGRAM V2; V0 = Q0/32/40; V1 = PA; V2 = Q0/40/1; V1; SET 4; OUT; V0; =Q1; =C1; MWQ1; INTQ1; MRWDQ1; INTQ1; V2; =Q2; C1; =C2; MFSKQ2; INTQ2; ZERO; OUT; FINISH;"
    tape = f"KDF9 JOB 1\nSLOT 0\nSTORE 64\nDECK\n{rewinds}\nENDDECK\nDEVICE 3 MT A\nSCHEDULE\nORDERS 9000\nENDJOB\n"
    found = times_of_transfers(kdf9(["schedule", "-", "--speeds", "kdf9"], tape).out)
    short = tape.replace("MWQ1; INTQ1; MRWDQ1;", "MFRQ1; INTQ1; MRWDQ1;").replace("DEVICE 3 MT A\n", "DEVICE 3 MT A\n+ABCDEFGHIJKLMNOPQRS\n")
    shorter = times_of_transfers(kdf9(["schedule", "-", "--speeds", "kdf9"], short).out)
    yield "a block has fewer words than its area", None if shorter == ([833 + 33 * 3, 833, 833], "ENDED") else f"{shorter}"
    yield "an order without an area has no words", None if found == ([833 + 33 * 9, 833, 833], "ENDED") else f"{found}"
    none = kdf9(["schedule", "-", "--speed", "5=1+1"], punches("DEVICE 3 TP\n"))
    yield "a speed of no device", None if refused(none) and none.err == "-: the job has no device 5\n" else f"{none}"


def uneven_transfers_are_ended():
    """Where nothing tells when the next transfers begin, or where that is seen late, the schedule ends them all the same, and the program with them."""
    for what, lengths, rounds in UNEVEN:
        for words, delay in (([], 20), (["--after", "9"], 9)):
            run = kdf9(["schedule", "-", *words], reads_unevenly(lengths, rounds))
            wrong = transfer_is_late(run.out, delay) if (run.status, run.err) == (0, "") else f"{run.status} {run.err}"
            yield f"a schedule of {what}", wrong or (None if "\nSTATE ENDED\n" in kdf9(["run"], run.out).out else "that doesn't lead to the end")


def devices_of_the_pool_are_answers():
    job = (ROOT / "tests/cases/second-program-waits-for-the-common-punch.job").read_text(encoding="latin-1")
    two = job.replace("DEVICE 9 TP\n", "DEVICE 9 TP\nDEVICE 4 TP\n")
    due = "slot 0: the same\nslot 1: the same after 3 orders; order 4 asked, and was answered 9 in - and 4 alone\n"
    run = kdf9(["same", "-"], two.replace("END 9\n", "END 4\n", 1))
    yield "same of programs that take other devices", None if (run.status, run.out) == (0, due) else f"{run} in place of {due}"
    late = kdf9(["schedule", "-", "--after", "9", "9=8"], two)
    yield "a schedule of devices of the pool", None if schedule_of(late.out) == "ORDERS 17 END 4 ORDERS 10 END 9 ORDERS 18" else f"{late}"


def programs_are_compared():
    with tempfile.TemporaryDirectory() as folder:
        for one, other, due in SAME:
            names = []
            for words in (one, other):
                if words:
                    names.append(os.path.join(folder, str(len(names))))
                    with open(names[-1], "w", encoding="latin-1") as file:
                        file.write(kdf9(["schedule", "-", *words], ASKS).out)
            run, due = kdf9(["same", *names], ""), due.format(*names)
            yield f"same by {one}, {other}", None if (run.status, run.out) == (0, due) else f"{run} in place of {due}"
        yield "same of a program that comes to something else", other_machine_is_seen(folder)
        yield "same with other neighbours", other_neighbours_are_seen(folder)


def other_neighbours_are_seen(folder):
    """What is wrong with what same says of a job and the same job without its slot 1; or None."""
    job = "examples/computes-while-it-reads.job"
    lonely = os.path.join(folder, "lonely")
    with open(lonely, "w", encoding="latin-1") as file:
        file.write(re.sub(r"^SLOT 1\n.*?^(?=SCHEDULE$)", "", (ROOT / job).read_text(), flags=re.MULTILINE | re.DOTALL))
    run = kdf9(["same", job, lonely], "")
    return None if (run.status, run.out) == (0, f"slot 0: the same\nslot 1: not in {lonely}\n") else f"{run}"


def other_machine_is_seen(folder):
    """What is wrong with what same says of a machine that leaves another nest when a program runs alone; or None."""
    machine = os.path.join(folder, "machine")
    with open(machine, "w", encoding="ascii") as file:
        file.write(f'#!/bin/sh\n"{ROOT}/kdf9" "$@" | if [ "$1" = alone ]; then sed "s/^NEST .*/NEST 9/"; else cat; fi\n')
    os.chmod(machine, 0o755)
    whole = [os.path.join(ROOT, "tools", "same"), os.path.join(ROOT, "examples", "adds-5-and-7.job")]
    done = subprocess.run(whole, env={**ENVIRONMENT, "KDF9": machine}, capture_output=True, text=True, check=False)
    return None if (done.returncode, done.stdout) == (1, "slot 0: NOT the same after 7 orders: NEST\n") else f"{done}"


def orders_are_traced():
    run = kdf9(["steps", "-", "2", "8", "--run", "--watch", "E32"], kdf9(["schedule", "-", "--after", "7"], ASKS).out)
    due = [
        r" +8 +8 +4/2  PRQ1 +empty +E32 = 0 = 0{16}; a transfer of device 3 begins", r" +9  3 +9 +4/4  BUSYQ1 .*; answered 1",
        r" +10  3 +10 +5/0  J1TR .*", r" +calls 11 to 15: held up from call 11 by group 1; 4 calls idle; END 3 after call 15; E32 = .* = 4142434445464750",
        r" +16 +11 +5/5  E32 .*", r" +17 +12 +6/2  ZERO .*", r" +18 +13 +6/3  OUT .*",
    ]
    lines = run.out.split("\n")[1:-1]
    alike = len(lines) == len(due) and all(map(re.fullmatch, due, lines))
    yield "steps --run of a program that asks", None if alike else f"{run} in place of {due}"
    tail = kdf9(["steps", "-", "--run"], ASKS).out.split("\n")[-2]
    due = "          calls 11 to 30: held up from call 11 by group 1; 19 calls idle"
    yield "steps --run of a program that is held for good", None if tail == due else f"{tail!r} in place of {due!r}"
    for name, orders, due in WAITS:
        run = kdf9(["steps", f"examples/{name}.job", "1", *orders, "--run"], "")
        yield f"steps --run of {name}", None if all(line in run.out for line in due) else f"{run} without {due}"


def answers_of_the_service_are_shown():
    run = kdf9(["steps", "-", "1", "4", "6", "--run"], SERVED)
    due = [
        r" +4 +4 +2/0  OUT +117440512 +answered 117440512 by the installation's service, to the word 0000000000000007", r" +5 +5 +2/1  SET 9 .*",
        r" +6 +6 +2/4  OUT +5 117440512 +answered 5",
    ]
    lines = run.out.split("\n")[1:-1]
    alike = len(lines) == len(due) and all(map(re.fullmatch, due, lines))
    yield "steps --run of a program that asks the service", None if alike else f"{run} in place of {due}"
    run, due = kdf9(["same", "-"], SERVED), "slot 1: the same after 3 orders; order 4 asked, and was answered 117440512 in - and 0 alone\n"
    yield "same of a program that asks the service", None if (run.status, run.out) == (0, due) else f"{run} in place of {due}"
    run = kdf9(["schedule", "-"], SERVED)
    yield "a schedule of a slot that is served", None if (run.status, run.out) == (0, SERVED) else f"{run}"
    with tempfile.NamedTemporaryFile("w", encoding="ascii") as other:
        other.write(SERVED.replace("SERVICE\n", ""))
        other.flush()
        run = kdf9(["same", "-", other.name], SERVED)
    yield "same with a slot that isn't served", None if refused(run) and "no slot has the same program" in run.err else f"{run}"


def run_is_wrong(text, slot):
    """What is wrong with the first orders of a program as it ran under Director: they have to be those of the job's own report; or None."""
    run, own = kdf9(["steps", "-", slot, "1", "12", "--run"], text), kdf9(["run"], text).out
    section = own[own.index(f"\nSLOT {slot}\n"):]
    orders = int(re.search(r"^ORDERS (\d+)$", section, re.MULTILINE)[1])
    if orders == 0:
        return None if refused(run) else f"{run}"
    lines = [line.split() for line in run.out.split("\n")[1:-1] if line[7] != " "]
    shown = [next(word for word in words[1:] if re.fullmatch(r"\d+", word)) for words in lines]
    due = min(orders, 12)
    return None if len(shown) == due and run.status == 0 and not run.err else f"{run} in place of {due} orders"


def examples_are_run():
    with ThreadPoolExecutor() as pool:
        for cases in pool.map(lambda example: list(example_is_run(*example)), examples()):
            yield from cases


def example_is_run(name, text):
    """Each of these tools over one example."""
    own = kdf9(["run"], text)
    if own.status:
        runs = [kdf9(words, text) for words in (["schedule", "-"], ["same", "-"], ["steps", "-", "--run"])]
        yield f"tools that refuse {name}", None if all(map(refused, runs)) else f"aren't refused: {runs}"
        return
    alone = kdf9(["same", "-"], text)
    yield f"same of {name}", None if alone.status == 0 and not alone.err else f"{alone}"
    scheduled = kdf9(["schedule", "-", "--after", "9"], text)
    yield f"schedule of {name}", transfer_is_late(scheduled.out, 9) if scheduled.status == 0 else f"{scheduled}"
    for slot in re.findall(r"^SLOT (\d)$", own.out, re.MULTILINE):
        yield f"steps --run of {name}", run_is_wrong(text, slot)


def bad_input_is_refused():
    for (words, _, line), run in zip(BAD_INPUT, side_by_side([case[:2] for case in BAD_INPUT])):
        good = refused(run) and run.err.startswith(line)
        yield f"bad input of {' '.join(words)}", None if good else f"{run} in place of {line!r}"


SUITES = (
    schedules_are_written, transfers_go_by_their_lengths, uneven_transfers_are_ended, devices_of_the_pool_are_answers, programs_are_compared, orders_are_traced, answers_of_the_service_are_shown, examples_are_run,
    bad_input_is_refused,
)
