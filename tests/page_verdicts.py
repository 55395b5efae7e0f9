"""Tries what the page says first of a run: what came of each program, where it stopped, and what lets it go on."""
import json

from shown import Shown, id_of
from slips import RING, SLIPS, job
from toolkit import ROOT

READS = "PROGRAM V0; V0 = Q3/32/33;\n  SET 2; SET 5; OUT; V0; =Q1;\n  PRQ1; E32; ZERO; OUT; FINISH;"
TAPE = "DEVICE 3 TR\n+ABCDEFGH\n"
LOOP = "PROGRAM;\n1; J1; FINISH;"

# A job whose program is held up, since its schedule doesn't end a transfer.
HELD = job(READS, TAPE)

VERDICTS = "[...document.querySelectorAll('#verdicts li')].map((it) => [it.className, it.querySelector('span:last-child').textContent])"
MARKED = "[...document.querySelectorAll('#editors .stopped')].map((it) => it.textContent)"

# A job, the kind and the parts of what is said of each program, and the statements that are marked.
CASES = [
    ("one that ends", job("PROGRAM; ZERO; OUT; FINISH;"), [("ended", ["Program 0 has ended, after 3 orders."])], []),
    ("one that fails", job("PROGRAM;\n  SET 1; ERASE; ERASE;\n  FINISH;"), [("failed", ["Program 0 failed at ERASE, line 2 of its deck. NOUV: nesting store", "the nest has 0 words"])], ["ERASE"]),
    ("one that runs past its end", job("PROGRAM V0;\n  ZERO; =V0;\nFINISH;"), [("failed", ["where no statement wrote an order. LIV: lock-in", "is a jump missing, or ZERO; OUT; at the end?"])], []),
    ("an area above the store", job(READS.replace("33", "64"), TAPE), [("failed", ["at PRQ1, line 3 of its deck. LIV: lock-in", "Q1 is 3/32/64;", "words 0 to 63"])], ["PRQ1"]),
    ("a transfer without its END", HELD, [("held", ["held up at E32, line 3 of its deck, since call", "words 32 to 63", "has no END 3 after call"])], ["E32"]),
    ("a loop", job(LOOP), [("cut", ["the 40 calls of the schedule are used up, in which it obeyed 40 orders. It is at J1, line 2"])], ["J1"]),
    ("a deadlock", RING, [("deadlock", ["for a printer of the pool, and program 1 has had device 4", "deadlock: it and program 1 wait"]),
                          ("deadlock", ["for a punch of the pool, and program 0 has had device 9", "deadlock: it and program 0 wait"])], ["OUT", "OUT"]),
]

# A job, the button of a verdict, and what the run that follows has to have.
CHANGES = [
    (HELD, "Write END 3", "\nENDED 0\n"),
    (job(READS, TAPE, "ORDERS 10\n"), "Write END 3", "\nENDED 0\n"),
    (job(LOOP), "Give the run 400 calls", "\nRAN 0 400\n"),
]


def first_job_has_run(opened, address):
    """On opening, the first job has run, and its verdict, its picture and its words are there."""
    shown = Shown(opened(address))
    shown.idle()
    seen = shown.js(f"[{VERDICTS}.length, document.querySelectorAll('#pictured svg').length, document.querySelectorAll('#sections table').length, {id_of('text-details')}.open]")
    yield "the page when it is opened", None if seen[:2] == [1, 1] and seen[2] and not seen[3] and shown.state().startswith("Done, in") else f"{seen} {shown.state()}"
    order = shown.js("[...document.querySelectorAll('#state, #verdicts, #pictured, #sections, #text-details')].map((it) => it.id).join(' ')")
    hidden = shown.js("(({ scrollWidth, clientWidth }) => scrollWidth - clientWidth)(document.querySelector('.slot textarea'))")
    yield "the first deck is in sight", None if hidden <= 0 else f"{hidden} pixels of it aren't"
    yield "the sequence of the results", None if order == "state verdicts pictured sections text-details" else order
    shown.page.close()


def verdicts_come_first(shown):
    """Each program has its sentence, and the statement at which it stopped is marked in the deck and in the whole text; only a run that ended is done."""
    for what, text, due, marked in CASES:
        for how in ("whole", "parts"):
            shown.write_job(text)
            shown.view(how)
            shown.run("run")
            seen = shown.js(VERDICTS)
            good = len(seen) == len(due) and all(kind == due_kind and all(part in said for part in parts) for (kind, said), (due_kind, parts) in zip(seen, due))
            yield f"what is said of {what}", None if good else f"{seen}"
            yield f"the signs at the ends of sentences on {what}", None if not any("?." in said for _, said in seen) else f"{seen}"
            yield f"what is marked of {what}, {how}", None if shown.js(MARKED) == marked else f"{shown.js(MARKED)}"
            is_done = shown.state().startswith("Done")
            yield f"whether {what} is done", None if is_done == all(kind == "ended" for kind, _ in due) else shown.state()
    shown.js("document.querySelector('#verdicts button').click()")
    seen = shown.js("[document.activeElement.tagName, document.activeElement.selectionStart, document.activeElement.value.slice(document.activeElement.selectionStart)]")
    yield "the caret goes to the statement", None if seen[0] == "TEXTAREA" and seen[2].startswith("OUT;") else f"{seen}"
    shown.type_into(".slot textarea", "PROGRAM; ZERO; OUT; FINISH;\n")
    yield "no mark after a change", None if shown.js(MARKED) == [] else f"{shown.js(MARKED)}"
    shown.js("document.querySelector('#verdicts button').click()")
    yield "and no way to the statement", None if "has been changed since" in shown.state() else shown.state()


def verdicts_change_the_job(shown):
    """The button of a verdict changes the schedule, and runs the job again; Undo takes the change back."""
    for text, name, due in CHANGES:
        shown.write_job(text)
        shown.view("parts")
        shown.run("run")
        shown.js(f"[...document.querySelectorAll('#verdicts button')].find((it) => it.textContent === {json.dumps(name)}).click()")
        shown.idle()
        yield f"{name} of {len(text)} bytes", None if due in shown.js("kdf9.text()") else shown.js("kdf9.job()")
        shown.js(f"{id_of('offer')}.querySelector('button').click()")
        yield f"undo: {name}", None if shown.js("kdf9.job()") == text else shown.js("kdf9.job()")
    shown.run("run")
    shown.type_into(".slot textarea", "PROGRAM; DUMMY;\n1; J1; FINISH;\n")
    changed = shown.js("kdf9.job()")
    shown.js("[...document.querySelectorAll('#verdicts button')].at(-1).click()")
    said = shown.state()
    yield "no change of another job", None if "has been changed since" in said and shown.js("kdf9.job()") == changed else said
    text = job(LOOP, schedule="ORDERS 20000000\n")
    shown.write_job(text)
    shown.run("run")
    names = shown.js("[...document.querySelectorAll('#verdicts button')].map((it) => it.textContent)")
    yield "no more calls than a schedule may have", None if names == ["Go to it"] else f"{names}"


def verdicts_are_on_all_examples(shown):
    """Every example of a run has a verdict for each of its programs, which agrees with its state."""
    for path in sorted((ROOT / "examples").glob("*.args")):
        report = path.with_suffix(".report").read_text(encoding="latin-1")
        if path.read_text(encoding="ascii") != "run\n" or not path.with_suffix(".job").exists() or not report.startswith("KDF9 REPORT"):
            continue
        shown.write_job(path.with_suffix(".job").read_text(encoding="ascii"))
        shown.run("run")
        kinds = {"ENDED": ["ended"], "FAILED": ["failed"], "LIVE": ["held", "deadlock", "cut"]}
        states = [line.split(" ")[1] for line in report.splitlines() if line.startswith("STATE ")]
        seen = shown.js(VERDICTS)
        good = len(seen) == len(states) and all(kind in kinds[state] for (kind, _), state in zip(seen, states))
        yield f"the verdicts of {path.stem}", None if good else f"{seen} for {states}"


def causes_are_shown(shown):
    """Of each slip whose program failed, the page says the cause that the machine tells, and of one that is live whatever the sentence on it doesn't say."""
    for what, text, _ in SLIPS:
        facts = json.loads(shown.js(f"kdf9.ask(['run'], {json.dumps(text)}, true).then(({{ text }}) => text)"))
        if not any(program.get("why") for program in facts.get("programs", [])):
            continue
        shown.write_job(text)
        shown.run("run")
        seen = [said for _, said in shown.js(VERDICTS)]
        for program, said in zip(facts["programs"], seen):
            due = [cause["sentence"] for cause in program["why"] or [] if "step" in cause or cause["what"] in ("loop", "turns")]
            yield f"the causes of {what}", None if all(each[1:] in said for each in due) else f"{said} without {due}"


def stores_are_enlarged(shown):
    """If a deck is too large for its store, the page says how many words it becomes, and writes the least store that has room."""
    text = job("Y99; PROGRAM; ZERO; OUT; FINISH;", "DEVICE 3 TR\n+AB\nSHOW 0 1\n")
    shown.write_job(text)
    shown.view("parts")
    shown.run("run")
    said = shown.js("document.querySelector('.fault').textContent")
    yield "how many words", None if "TooLarge" in said and "Hint: the deck becomes 102 words." in said else said
    shown.js("[...document.querySelectorAll('.fault button')].find((it) => it.textContent === 'Write STORE 128').click()")
    got = shown.run("run")
    good = got[1] == 0 and shown.js("kdf9.job()") == text.replace("STORE 64", "STORE 128")
    yield "a larger store is written", None if good else f"{got} {shown.js('kdf9.job()')}"


SUITES = stores_are_enlarged, causes_are_shown, verdicts_come_first, verdicts_change_the_job, verdicts_are_on_all_examples
