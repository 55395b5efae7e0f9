"""Compares the tables of tables/ with what stands in the crates: names, codes, forms, faults, numbers and characters."""
import re
from typing import Callable, Dict, Iterator, List, Optional, Tuple

Read = Callable[[str], str]
Cases = Iterator[Tuple[str, Optional[str]]]

# Where a number of tables/job.json stands in the crates: the place in the table, the file, and the constant.
LINES_IN_CRATES = [
    ("SLOT", 0, 1, "kdf_job/src/forms.rt", "LAST_SLOT"), ("STORE", 0, 0, "kdf_limits/src/store.rt", "GROUP_WORDS"), ("STORE", 0, 1, "kdf_limits/src/store.rt", "PROGRAM_WORDS"),
    ("SHOW", 0, 1, "kdf_limits/src/store.rt", "LAST_ADDRESS"), ("SHOW", 1, 1, "kdf_limits/src/store.rt", "LAST_ADDRESS"), ("DEVICE", 0, 1, "kdf_job/src/forms.rt", "LAST_DEVICE"),
    ("MOVE", 0, 1, "kdf_schedule/src/reader.rt", "LAST_DEVICE"), ("MOVE", 1, 1, "kdf_schedule/src/reader.rt", "MOST_WORDS"), ("END", 0, 1, "kdf_schedule/src/reader.rt", "LAST_DEVICE"),
    ("SWAP", 0, 1, "kdf_schedule/src/reader.rt", "LAST_SLOT"), ("SWAP", 1, 1, "kdf_schedule/src/reader.rt", "LAST_SLOT"), ("ORDERS", 0, 1, "kdf_schedule/src/event.rt", "MOST_ORDERS"),
    ("CLOCK", 0, 1, "kdf_text/src/numbers.rt", "GREATEST"),
]
MOST_IN_CRATES = {
    "slots": ("kdf_journal/src/tally.rt", "SLOTS"), "devices": ("kdf_journal/src/tally.rt", "DEVICES"), "words": ("kdf_limits/src/store.rt", "PROGRAMS_WORDS"),
    "words_of_group": ("kdf_limits/src/store.rt", "GROUP_WORDS"), "lines_of_schedule": ("kdf_limits/src/job.rt", "EVENTS"), "bytes": ("kdf_command/src/command.rt", "JOB_LIMIT"),
    "bytes_of_more": ("kdf_job/src/job.rt", "TEXT_LIMIT"), "words_of_area": ("kdf_processor/src/claims.rt", "LONGEST_AREA"),
}
LONGEST_IN_CRATES = {"CR": ("kdf_media/src/stack.rt", "CARD_LENGTH"), "MT": ("kdf_limits/src/job.rt", "TAPE_BLOCK")}

# The faults of each text: the file, and the type that has them.
FAULTS_IN_CRATES = {"job": ("kdf_job/src/fault.rt", "JobFault"), "snapshot": ("kdf_snapshot/src/fault.rt", "SnapshotFault"), "deck": ("kdf_usercode/src/fault.rt", "DeckFault")}


def differs(found: object, due: object) -> Optional[str]:
    """What is said of what the table has, if the crates have something else."""
    return None if found == due else f"the table has {found!r}, and the crates have {due!r}"


def constant(read: Read, file: str, name: str) -> Optional[int]:
    """The number of this name in a file of the crates, which may be the one before another."""
    found = re.search(rf"\bconst {name}: \w+ = (?:([0-9_xa-fA-F]+)|([A-Z_]+) - 1);", read(f"crates/{file}"))
    if found and found[2]:
        above = constant(read, file, found[2])
        return None if above is None else above - 1
    return int(found[1].replace("_", ""), 0) if found else None


def rows_of(read: Read, file: str, name: str) -> List[Tuple[str, str]]:
    """The rows of the list of this name in a file of the crates: the text of each, and what stands beside it."""
    listed = re.search(rf"const {name}: .*?= \[\n(.*?)\n\];", read(f"crates/{file}"), re.DOTALL)
    return re.findall(r'\("([^"]*)", (.*)\),', listed[1]) if listed else []


def codes_of_orders(read: Read) -> Dict[str, str]:
    """The code of each form of an order that names no store and no reference: its first syllable, and the number of a test behind it."""
    fixed = {"ExitNone": "B2", "Exit": "B2", "SetUp": "E0", "SetDown": "E0"}
    codes = {}
    for form, order in rows_of(read, "kdf_usercode/src/order_names.rt", "ORDERS"):
        kind, code = re.match(r"OrderForm::(\w+)(?: \{ \w+: (\w+) \})?", order).groups()
        codes[form] = fixed.get(kind) or (f"7E q{code}" if kind == "Query" else f"{int(code, 0):02X}")
    return codes


def codes_of_jumps(read: Read) -> Dict[str, str]:
    """The first syllable of each jump to a reference, by its form."""
    counts = {"Test::CountZero": 0x00, "Test::CountNotZero": 0x10}
    tests = {f"J0{shape}": test for shape, test in rows_of(read, "kdf_usercode/src/jumps.rt", "CONDITIONS")}
    subroutine = re.search(r'fn subroutine_form\(.*?strip\(shape, b"(\w+)"\).*?(Test::Of \{ c: \w+ \})', read("crates/kdf_usercode/src/jumps.rt"), re.DOTALL)
    tests[f"{subroutine[1]}0"] = subroutine[2]
    jump = constant(read, "kdf_syllable/src/spelling.rt", "JUMP")
    return {form: f"{jump + (counts[test] if test in counts else int(test.split()[-2], 0)):02X}" for form, test in tests.items()}


def orders_are_those_of_the_crates(read: Read, tables: dict) -> Cases:
    """The forms of orders with their codes."""
    table = tables["orders"]
    forms = {form: order["code"] if order["group"] == "tests" else code for order in table["orders"] for form, code in order["forms"].items()}
    named = codes_of_orders(read)
    for form, code in named.items():
        yield f"the order {form}", differs(forms.get(form), code)
    jumps = codes_of_jumps(read)
    for form, code in jumps.items():
        yield f"the jump {form}", differs(forms.get(form), code)
    short = constant(read, "kdf_place/src/spell.rt", "SHORT")
    others = {row["form"] for row in table["statements"] if row["form"] != "Y0"} | {"J0C0NZS"}
    yield "the short loop", differs(forms.get("J0C0NZS"), f"{short:02X}")
    yield "the statements that aren't orders", differs(sorted(others), sorted(form for form, _ in rows_of(read, "kdf_usercode/src/forms.rt", "STATEMENTS")))
    stores = re.compile(r"=?(?:E0|V0(?:P0)?|Y0)(?:M0Q?)?|SETB0|SETA(?:V0(?:P0)?|Y0)|J(?:P0|0P0).*|JSP0|JS0P0")
    strangers = [form for form in forms if form not in {**named, **jumps, "J0C0NZS": ""} and not stores.fullmatch(form)]
    yield "no other orders", None if not strangers else f"the crates don't have {strangers}"
    floating = [name for name, _ in rows_of(read, "kdf_usercode/src/order_names.rt", "REFUSED")]
    yield "the orders on floating numbers", differs(table["floating"], floating)


def forms_of_hints(read: Read, tables: dict) -> Cases:
    """The forms among which a hint looks for the one that was meant: each of the table once."""
    table, text = tables["orders"], read("crates/kdf_hints/src/form_names.rt")
    forms = [form for order in table["orders"] for form in order["forms"]] + [row["form"] for row in table["statements"]]
    tried = re.search(r'FORMS: &\[u8\] = b"(.*?)";', text, re.DOTALL)[1].replace("\\\n", " ").split()
    yield "the forms that hints try", differs(list(dict.fromkeys(forms)), tried)


def faults_are_those_of_the_crates(read: Read, tables: dict) -> Cases:
    """The names of faults in the sequence of their numbers."""
    for what, (file, name) in FAULTS_IN_CRATES.items():
        text = read(f"crates/{file}")
        names = [row["name"] for row in tables["faults"][what]]
        body = re.search(rf"pub enum {name} {{\n(.*?)\n}}", text, re.DOTALL)[1]
        yield f"the faults of a {what}", differs(names, re.findall(r"^    (\w+),", body, re.MULTILINE))
        printed = dict(re.findall(rf'{name}::(\w+) => "(\w+)"', text))
        yield f"the faults of a {what} as they are printed", differs({each: each for each in names}, printed)
        numbers = {each: int(number) for each, number in re.findall(rf"{name}::(\w+) => (\d+)", text)}
        yield f"the numbers of the faults of a {what}", differs(dict(zip(names, range(1, 99))), numbers) if numbers else None


def lines_are_those_of_the_crates(read: Read, tables: dict) -> Cases:
    """The numbers of lines and of media, the words with which lines begin, the kinds of devices, and the characters."""
    table = tables["job"]
    lines = {row["word"]: row for row in table["lines"]}
    for word, place, end, file, name in LINES_IN_CRATES:
        yield f"{name} of the line {word}", differs(lines[word]["numbers"][place][end], constant(read, file, name))
    for what, (file, name) in MOST_IN_CRATES.items():
        yield f"the most {what}", differs(table["most"][what], constant(read, file, name))
    for kind, (file, name) in LONGEST_IN_CRATES.items():
        longest = next(row["longest"] for row in table["kinds"] if row["kind"] == kind)
        yield f"the longest medium of {kind}", differs(longest, constant(read, file, name))
    texts = "".join(read(f"crates/kdf_{name}.rt") for name in ("job/src/forms", "job/src/draft", "job/src/taking", "job/src/slot_draft", "job/src/made", "schedule/src/reader"))
    missing = [word for word in lines if f'"{word}"' not in texts]
    yield "the words of lines", None if not missing else f"the crates don't have {missing}"
    kinds = re.findall(r'Kind::\w+ => "(\w+)"', read("crates/kdf_journal/src/kind.rt"))
    yield "the kinds of devices", differs(sorted(row["kind"] for row in table["kinds"]), sorted(kinds))
    said = {kind.upper(): name for kind, name in re.findall(r'Kind::(\w+) => "a ([a-z ]+)"', read("crates/kdf_causes/src/kinds.rt"))}
    yield "the kinds of devices in words", differs({row["kind"]: row["name"] for row in table["kinds"]}, said)
    claimed = [f"{row['claimed_as']} ({row['kind']})" for row in sorted(table["kinds"], key=lambda row: row.get("claimed_as", 0)) if "claimed_as" in row]
    yield "the numbers of kinds that OUT 5 takes", differs(f"OUT 5 needs {', '.join(claimed[:-1])} or {claimed[-1]} in N2", re.search(r'"(OUT 5 needs .* in N2)', read("crates/kdf_causes/src/broken_out.rt"))[1])
    host = re.search(r'const HOST: \[u8; 64\] = \*b"(.*?)";', read("crates/kdf_code/src/code.rt"), re.DOTALL)[1]
    yield "the characters", differs(table["characters"], re.sub(r"\\\n *", "", host).replace('\\"', '"'))


def entries_are_those_of_the_crates(read: Read, tables: dict) -> Cases:
    """The entries of a journal, and how many fields each of them has."""
    body = re.search(r"pub enum Entry {\n(.*?)\n}", read("crates/kdf_journal/src/entry.rt"), re.DOTALL)[1]
    due = {name.upper(): fields.count(":") for name, fields in re.findall(r"^    (\w+) \{(.*)\},", body, re.MULTILINE)}
    said = read("crates/kdf_causes/src/why.rt")
    missing = [row["holds"] for row in tables["entries"] if "holds" in row and row["holds"].partition("{")[0] not in said]
    yield "what holds a program up in words", None if not missing else f"the crates don't say {missing}"
    yield "the entries of a journal", differs({row["entry"]: len(row["fields"]) for row in tables["entries"]}, due)


CHECKS = (orders_are_those_of_the_crates, forms_of_hints, faults_are_those_of_the_crates, lines_are_those_of_the_crates, entries_are_those_of_the_crates)
