"""Tries steps --at, which shows a program each time that it comes to a statement. It is compared with steps --run on every example."""
import re
from concurrent.futures import ThreadPoolExecutor

from toolkit import HEAD, PLAIN, TAIL, examples, kdf9, refused, side_by_side

# How many orders are shown of each example, and how many times.
ORDERS, TIMES = 16, 5

LOOP = HEAD + TAIL
INSIDE = LOOP.replace(PLAIN, "PROGRAM; ZERO; 1; J1; FINISH;")
CALLS = LOOP.replace(PLAIN, "PROGRAM; SET 2; JSP7; ERASE; JSP7; ZERO; OUT; P7V1; SET 5; 3; =V1P7; J3C1NZ; EXIT 1; FINISH;")
STARS = LOOP.replace(PLAIN, "PROGRAM; ZERO; 1; *; 2; ERASE; *; J1; P2; ZERO; 3; *; FINISH;")
FAILS = LOOP.replace(PLAIN, "PROGRAM; *; 1; ERASE; FINISH;")

# The arguments, the job, and the lines: the time, after which order and call, the nest, and what has changed.
TIMES_SHOWN = [
    (["0", "8", "9"], "--at 1", LOOP, ["8 8 8 empty", "9 9 9 empty"]),
    (["0"], "--at 0/0", LOOP, ["1 0 0 empty"]),
    (["0", "2", "3"], "--at 1/1", INSIDE, ["2 3 3 0", "3 4 4 0"]),
    (["0"], "--at P7", CALLS, ["1 3 3 2 links 1/3", "2 9 9 empty V1P7 = 5; links 2/1"]),
    (["0"], "--at 3P7", CALLS, ["1 4 4 5 2 links 1/3", "2 10 10 5 V1P7 = 5; links 2/1"]),
    (["0"], "--at P7 --watch V1P7", CALLS, ["1 3 3 2 V1P7 = 0 = 0000000000000000", "2 9 9 empty V1P7 = 5 = 0000000000000005"]),
    (["0"], "--at 1", STARS, ["1 7 7 0"]),
    (["0"], "--at 1", FAILS, ["1 1 1 empty", "2 2 2 empty FAILED NOUV"]),
]

BAD_INPUT = [
    (["0", "--at", "2"], LOOP, "-: slot 0 has no statement 2; a statement is a reference such as 1 or 3P2, a part such as P2, or "),
    (["0", "--at", ""], LOOP, "-: slot 0 has no statement "),
    (["0", "--at", "P1"], LOOP, "-: slot 0 has no statement P1"),
    (["0", "--at", "1P1"], LOOP, "-: slot 0 has no statement 1P1"),
    (["0", "--at", "J1"], LOOP, "-: slot 0 has no statement J1"),
    (["0", "--at", "1/6"], LOOP, "-: slot 0 has no statement 1/6"),
    (["0", "--at", "64/0"], LOOP, "-: slot 0 has no statement 64/0"),
    (["1", "--at", "1"], LOOP, "-: the job has no slot 1"),
    (["0", "--at", "63/0"], LOOP, "-: the program doesn't come to 63/0 in this run"),
    (["0", "--at", "63/1"], LOOP, "-: the program doesn't come to 63/1 in this run"),
    (["0", "11", "--at", "1"], LOOP, "-: the program comes to 1 only 10 times in this run"),
]


def times_are_shown():
    cases = [(["steps", "-", *numbers, *options.split()], text) for numbers, options, text, _ in TIMES_SHOWN]
    for (words, _), (*_, due), run in zip(cases, TIMES_SHOWN, side_by_side(cases)):
        shown = [" ".join(line.split()) for line in run.out.split("\n")[2:-1]]
        yield " ".join(words), None if shown == due and not run.err else f"{run} in place of {due}"


def times_are_those_of_the_run():
    with ThreadPoolExecutor() as pool:
        for cases in pool.map(lambda example: list(times_in(*example)), examples()):
            yield from cases


def times_in(name, text):
    """Each program of an example at the places to which it comes most often among its first orders: one that begins a word and one that doesn't."""
    own = kdf9(["run"], text)
    for slot, orders, place in re.findall(r"^SLOT (\d)\nSTATE .*\nORDERS (\d+)\nAT (\d+ \d)$", own.out if own.status == 0 else "", re.MULTILINE):
        if orders != "0":
            places = places_in_run(text, slot) + ([place.replace(" ", "/")] if int(orders) <= ORDERS else [])
            for begins_word in (True, False):
                some = [at for at in places if at.endswith("/0") == begins_word]
                if some:
                    yield f"steps --at of {name}", times_are_wrong(text, slot, places, max(some, key=some.count))


def places_in_run(text, slot):
    """The places of the first orders of a program."""
    run = kdf9(["steps", "-", slot, "1", str(ORDERS), "--run"], text)
    return [place[1] for place in re.finditer(r"^ *\d+  [\d,]* +\d+ +(\d+/\d)  ", run.out, re.MULTILINE)]


def times_are_wrong(text, slot, places, place):
    """What is wrong with the times that a program comes to a place, if it is at these places before its orders; or None."""
    run = kdf9(["steps", "-", slot, "1", str(TIMES), "--at", place], text)
    shown = [int(time[1]) for time in re.finditer(r"^ *\d+ +(\d+) +\d+  ", run.out, re.MULTILINE)]
    due = [orders for orders, at in enumerate(places) if at == place][:TIMES]
    among = [orders for orders in shown if orders < len(places)]
    return None if among == due and run.status == 0 and not run.err else f"{run} in place of {due}"


def bad_input_is_refused():
    cases = [(["steps", "-", *words], text) for words, text, _ in BAD_INPUT]
    for (words, _), (*_, line), run in zip(cases, BAD_INPUT, side_by_side(cases)):
        good = refused(run) and run.err.startswith(line)
        yield f"bad input of {' '.join(words)}", None if good else f"{run} in place of {line!r}"


SUITES = times_are_shown, times_are_those_of_the_run, bad_input_is_refused
