"""The kinds of questions. Each makes a job at random, and asks the machine for the answer; a job that isn't worth a question is dropped for the next one."""
from typing import Callable, Dict, List, Sequence

from courses import machine
from courses.schedules import AFTER, Chance, Plan, text_under
from kdf9.job import read_lines
from kdf9.report import length_of_journal, read_alone
from kdf9.words import count, listed
from quizzes.question import MOST_TRIES, Made, Question, Unfit, gave_up, path_of, ran, scheduled

# The orders on the nest that a deck of a question has, and how many of them; the largest number that it starts with, and that it leaves.
ON_NEST = ("+", "-", "DUP", "REV", "CAB", "PERM", "ERASE", "NEG", "ABS", "DUPD", "REVD", "XD; CONT")
FEWEST_ORDERS, MORE_ORDERS, LARGEST_START, LARGEST_LEFT = 4, 4, 9, 999

LETTERS = "ABCD"


def deck(body: str, head: str = "PROGRAM;") -> str:
    """A deck of a body, on lines of its own, that ends by itself."""
    return f"{head}\n{body}  ZERO; OUT;\nFINISH;\n"


def slot(number: int, text: str, devices: Sequence[str] = (), store: int = 64) -> str:
    """The lines of a slot."""
    return "".join(f"{line}\n" for line in [f"SLOT {number}", f"STORE {store}", "DECK"]) + text + "".join(f"{line}\n" for line in ["ENDDECK", *devices])


def nest(chance: Chance) -> Made:
    """What a deck leaves on the nest."""
    orders = [f"SET {1 + chance.below(LARGEST_START)}" for _ in range(2 + chance.below(3))]
    while len([order for order in orders if not order.startswith("SET")]) < FEWEST_ORDERS + chance.below(MORE_ORDERS):
        more = [*orders, chance.of(ON_NEST)]
        if state(more)[0] != "FAILED" and len(state(more)[1]) > 1:
            orders = more
    job, left = job_of_orders(orders), state(orders)[1]
    if not 2 <= len(left) <= 5 or any(abs(number) > LARGEST_LEFT for number in left):
        raise Unfit
    why = f"`./kdf9 steps` shows the nest after each order; the last one has {count(len(left), 'word')}."
    return "The program of this job is run.", {"job": job}, "What does it leave on the nest, top first?", " ".join(map(str, left)), why


def job_of_orders(orders: Sequence[str]) -> str:
    """The job of a deck of these orders."""
    lines = [orders[at:at + 6] for at in range(0, len(orders), 6)]
    text = deck("".join(f"  {' '.join(f'{order};' for order in line)}\n" for line in lines))
    return scheduled("KDF9 JOB 1\n" + slot(0, text, store=32), 100, [])


def state(orders: Sequence[str]):
    """How the program of these orders comes to its end, and the numbers on its nest."""
    section = read_alone(machine.ask(["alone", "0"], job_of_orders(orders)).text, 0)
    return section.state[0], [word - 2**48 if word >> 47 else word for word in section.nest]


def two_programs(chance: Chance) -> str:
    """A job without a schedule of a program that reads tape and one or two that compute."""
    blocks, between = 1 + chance.below(3), chance.below(4)
    waits = chance.of(("E32; ERASE;", "INTQ1;"))
    reads = f"  V0; =Q1; SET 2; SET 5; OUT; =C1; SET {blocks}; =C2;\n1; PRQ1; {'DUMMY; ' * between}{waits}\n  DC2; J1C2NZ;\n"
    text = slot(0, deck(reads, "PROGRAM V0; V0 = Q0/32/33;"), ["DEVICE 2 TR", "+" + "ABCDEFGHIJKLMNOP" * 3])
    for number in range(1, 2 + chance.below(2)):
        text += slot(number, deck(f"  SET {4 + chance.below(12)}; =C1;\n1; {chance.of(('DUMMY; ', ''))}DC1; J1C1NZ;\n"), store=32)
    return "KDF9 JOB 1\n" + text


def with_transfers(job: str, calls: int, after: int) -> str:
    """A job with a schedule in which each transfer ends so many calls after it began."""
    return f"{job}SCHEDULE\n{text_under(Plan('', AFTER, after), scheduled(job, calls, []), calls, ())}ENDJOB\n"


def slots_of(job: str) -> List[int]:
    """The numbers of the slots of a job."""
    return [int(line[5:]) for line in read_lines(job) if line.startswith("SLOT ")]


HOLDS = {"LOV": "group {}, which a transfer has locked out", "BUSY": "device {}, which has a transfer", "WAIT": "the pool, of which no {} is free"}


def held(chance: Chance) -> Made:
    """Which program runs at a call, and what holds another up."""
    after = 8 + chance.below(30)
    job = with_transfers(two_programs(chance), 200, after)
    path = path_of(ran(job), slots_of(job))
    others = [at for at, turn in enumerate(path.turns, 1) if turn.slot not in (None, 0) and turn.hold is None]
    fit = [at for at in others if 0 in path.moments[at].holds and path.moments[at].may_be_held(0, {})]
    if not fit:
        raise Unfit
    call = chance.of(fit)
    kind, which = path.moments[call].holds[0]
    said = HOLDS[kind].format(which)
    answer = f"slot {path.turns[call - 1].slot}; slot 0 is held up by {said}"
    task = f"In this job each transfer ends {count(after, 'call')} after it began."
    why = "`./kdf9 steps JOB 0 --run` shows from which call on it is held up, and `./kdf9 picture` all calls."
    return task, {"job": job}, f"Which program obeys an order at call {call}, and what holds up the program of slot 0 then?", answer, why


def idle(chance: Chance) -> Made:
    """How many calls are idle."""
    after = 5 + chance.below(40)
    job = with_transfers(two_programs(chance), 300, after)
    told = machine.measures_of(job)
    calls, number = told["calls"], told["idle"]
    if not number or "STATE LIVE" in ran(job):
        raise Unfit
    task = f"In this job each transfer ends {count(after, 'call')} after it began."
    why = f"The run takes {calls} calls. `./kdf9 stats` counts them, and the journal has them in its lines IDLE."
    return task, {"job": job}, "How many calls of the run are idle?", str(number), why


def pool_job(chance: Chance) -> str:
    """A job without a schedule of two programs that take a punch and a printer in different sequences."""
    head, kinds = "PROGRAM V0; V0 = Q0/32/32;", ((1, "PWQ", 3, "LPQ"), (3, "LPQ", 1, "PWQ"))
    text = "KDF9 JOB 1\n"
    for number, (first, writes, second, then) in enumerate(kinds):
        work = "DUMMY; " * chance.below(5)
        body = f"  SET {first}; SET 5; OUT; V0; =Q1; =C1; {writes}1; {work}INTQ1;\n  SET {second}; SET 5; OUT; V0; =Q2; =C2; {then}2;\n"
        text += slot(number, deck(f"{body}  C1; SET 6; OUT; C2; SET 6; OUT;\n", head))
    return text + "POOL\nDEVICE 8 TP\nDEVICE 9 LP\n"


def schedule_of(chance: Chance) -> List[str]:
    """The lines of a schedule that ends transfers of the punch and the printer in rounds of some length."""
    first, length = 6 + chance.below(26), 4 + chance.below(28)
    lines = [f"ORDERS {first}"]
    for _ in range(6):
        lines += [f"END {chance.of((8, 9))}", f"ORDERS {length}", "END 8", "END 9", f"ORDERS {length}"]
    return lines


def waits_for_good(report: str) -> bool:
    """Whether the run of this report, of two programs, comes to a deadlock."""
    return "STATE LIVE" in report and bool(path_of(report, [0, 1]).last.circle({8: "TP", 9: "LP"}))


def deadlock(chance: Chance) -> Made:
    """Which of four schedules leads to a deadlock."""
    job = pool_job(chance)
    right, wrong = [], []
    for _ in range(60):
        lines = schedule_of(chance)
        report = ran(scheduled(job, 0, lines))
        is_deadlock = waits_for_good(report)
        if not is_deadlock and "STATE LIVE" in report:
            continue
        mine = right if is_deadlock else wrong
        if lines not in mine:
            mine.append(lines)
        if right and len(wrong) >= 3:
            break
    if not right or len(wrong) < 3:
        raise Unfit
    told, at = wrong[:3], chance.below(4)
    told.insert(at, right[0])
    texts = {"job": job, **{f"schedule {LETTERS[each]}": "".join(f"{line}\n" for line in lines) for each, lines in enumerate(told)}}
    task = f"The job ends with one of the schedules {listed(list(LETTERS))}: its lines come between SCHEDULE and ENDJOB."
    why = "With it, each program has a device and waits for that of the other. `./kdf9 explain` says so, and `./kdf9 explore` finds that deadlock."
    return task, texts, "Which of the schedules leads to a deadlock?", LETTERS[at], why


def journal(chance: Chance) -> Made:
    """What check says of a journal of which a line is gone."""
    job = with_transfers(two_programs(chance), 150, 5 + chance.below(30))
    lines = read_lines(ran(job))
    end = length_of_journal(lines)
    gone = 2 + chance.below(max(1, end - 3))
    changed = "".join(f"{line}\n" for line in [*lines[:gone], *lines[gone + 1:]])
    verdict = machine.ask(["check"], job + changed).text.split("\n")[1]
    if not verdict.startswith("NO "):
        raise Unfit
    number = verdict[3:]
    shown = "".join(f"{line}\n" for line in [*lines[1:gone], *lines[gone + 1:end]])
    task = "Somebody took a line out of the journal of this job."
    why = f"The line was {lines[gone]}. `./kdf9 check` says NO {number}: no journal of this job begins with the entries up to that one."
    return task, {"job": job, "journal": shown}, "Which entry, counted from 1, is the first that is wrong?", number, why


KINDS: Dict[str, Callable[[Chance], Made]] = {"nest": nest, "held": held, "idle": idle, "deadlock": deadlock, "journal": journal}


def question(kind: str, seed: int) -> Question:
    """The question of a kind and a seed."""
    chance = Chance(seed * len(KINDS) + list(KINDS).index(kind))
    for _ in range(MOST_TRIES):
        try:
            return Question(kind, seed, *KINDS[kind](chance))
        except Unfit:
            continue
    raise gave_up(kind, seed)
