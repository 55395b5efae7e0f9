"""Compares the tables of tables/ with the documents. The heads of docs/ORDERS.md and the sentences on faults are made from the tables; the rest is compared."""
import re
from typing import Callable, Dict, Iterator, List, Optional, Tuple

Read = Callable[[str], str]
Cases = Iterator[Tuple[str, Optional[str]]]

HEAD = re.compile(r"^(### `([^`]+)`\n.*?^)(Code [^\n]*)$", re.MULTILINE | re.DOTALL)
FAULT_OF_DECK = re.compile(r"^(### (\d+) (\w+)\n\n)(.*?)(?=\n\n)", re.MULTILINE | re.DOTALL)
FAULT_OF_TEXT = re.compile(r"^\| `([A-Z][a-z]\w+)` \| (.*?) \|$", re.MULTILINE)
ROW_OF_CODES = re.compile(r"^\| ([0-9A-F]{1,2}(?:(?:, | to )[0-9A-F]{1,2})*) \| ((?:`[^`]+`(?:, )?)+) \|", re.MULTILINE)


def head_of(order: dict) -> str:
    """The line with the code of an order, as docs/ORDERS.md has it."""
    syllables = f"{order['syllables']} syllable{'s' if order['syllables'] > 1 else ''}"
    return f"Code {order['code']}, {syllables}. Needs {order['needs']}. Sets {order['sets']}. Fails: {', '.join(order['fails']) or 'never'}."


def orders_page(read: Read, tables: dict) -> str:
    """docs/ORDERS.md with the heads of the table."""
    heads = {order["name"]: head_of(order) for order in tables["orders"]["orders"]}
    return HEAD.sub(lambda found: found[1] + heads.get(found[2], found[3]), read("docs/ORDERS.md"))


def usercode_page(read: Read, tables: dict) -> str:
    """docs/USERCODE.md with the faults of the table."""
    rows = tables["faults"]["deck"]
    due = {row["name"]: (number, row["says"]) for number, row in enumerate(rows, 1)}

    def written(found: "re.Match") -> str:
        number, says = due.get(found[3], (found[2], found[4]))
        return f"### {number} {found[3]}\n\n{says}"

    return FAULT_OF_DECK.sub(written, read("docs/USERCODE.md"))


def job_page(read: Read, tables: dict) -> str:
    """docs/JOB.md with the faults of the table."""
    page = read("docs/JOB.md")
    for what in ("job", "snapshot"):
        rows = "\n".join(f"| `{row['name']}` | {row['says']} |" for row in tables["faults"][what])
        page = re.sub(rf"(## What is wrong with a {what}\n.*?\n\| name \| when \|\n\|---\|---\|\n).*?(?=\n\n)", lambda found: found[1] + rows, page, count=1, flags=re.DOTALL)
    return page


# The pages of which a part is made.
MADE = {"docs/ORDERS.md": orders_page, "docs/USERCODE.md": usercode_page, "docs/JOB.md": job_page}


def pages_are_made(read: Read, tables: dict) -> Cases:
    """Each page has what the tables say, and they have each order and fault of the page."""
    for name, made in MADE.items():
        page, due = read(name), made(read, tables)
        wrong = next((one for one, other in zip(page.split("\n"), due.split("\n")) if one != other), None)
        yield name, None if page == due else f"isn't made from the tables: {wrong!r} (tests/tables --write)"
    orders = [order["name"] for order in tables["orders"]["orders"]]
    yield "the orders of docs/ORDERS.md", same(orders, [found[2] for found in HEAD.finditer(read("docs/ORDERS.md"))])
    faults = [row["name"] for row in tables["faults"]["deck"]]
    yield "the faults of docs/USERCODE.md", same(faults, [found[3] for found in FAULT_OF_DECK.finditer(read("docs/USERCODE.md"))])


def same(names: List[str], others: List[str]) -> Optional[str]:
    """What is said if a page hasn't the names of the table."""
    apart = sorted({*names} ^ {*others})
    return f"{apart} are only in one of table and page" if apart or len(names) != len({*names}) else None


def orders_stand_in_their_groups(read: Read, tables: dict) -> Cases:
    """The table of groups in docs/USERCODE.md has the orders of each group, and docs/USERCODE.md and docs/DIFFERENCES.md name what is left out."""
    orders, page = tables["orders"]["orders"], read("docs/USERCODE.md")
    for group in dict.fromkeys(order["group"] for order in orders):
        row = re.search(rf"^\| {re.escape(group)} \| (.*) \|$", page, re.MULTILINE)
        if group in ("jumps", "stores", "constants"):
            continue
        names = [order["name"] for order in orders if order["group"] == group]
        listed = [name for name in re.findall(r"`([^`]+)`", row[1] if row else "") if name in names]
        yield f"the group {group} of docs/USERCODE.md", same(names, listed)
    floating = re.findall(r"`([^`]+)`", next(row["says"] for row in tables["faults"]["deck"] if row["name"] == "Floating"))
    yield "the sentence on orders for floating numbers", same(tables["orders"]["floating"], floating)
    left_out = read("crates/kdf_hints/src/form_names.rt").partition("LEFT_OUT")[2]
    for order in re.search(r"^for name in (.*); do$", read("docs/DIFFERENCES.md"), re.MULTILINE)[1].split():
        known = order in tables["orders"]["floating"] or re.search(rf'["\n ](?:{re.escape(order)}|{re.sub("[0-9]+", "0", order)})[ "]', left_out)
        yield f"{order} of docs/DIFFERENCES.md", None if known else "is no order that is left out"


def codes_in(text: str) -> List[int]:
    """The codes of a cell, one after the other."""
    codes: List[int] = []
    for part in text.split(", "):
        first, _, last = part.partition(" to ")
        codes += range(int(first, 16), int(last or first, 16) + 1)
    return codes


def first_code(order: dict) -> int:
    """The first syllable of an order, where the Q-store is 0."""
    return int(order["code"].split(" ")[0].replace("q", "0"), 16)


def codes_stand_in_the_tables(read: Read, tables: dict) -> Cases:
    """Each row of a table by code in docs/MACHINE.md has the codes of its orders, and the tables have each order that they can have."""
    orders = {order["name"]: order for order in tables["orders"]["orders"]}
    page, seen = read("docs/MACHINE.md"), set()
    for part in re.split(r"^(?=#|\*\*)", page, flags=re.MULTILINE):
        base = 0x80 if part.startswith("**Jumps") else 0
        for codes, cell in ROW_OF_CODES.findall(part):
            names = re.findall(r"`([^`]+)`", cell)
            seen.update(names)
            strangers = [name for name in names if name not in orders]
            if strangers:
                yield f"the codes {codes} in docs/MACHINE.md", f"{strangers} are no orders"
                continue
            if part.startswith("### Tests"):
                due = [int(orders[name]["code"][-1]) for name in names]
            else:
                due = [first_code(orders[name]) - base for name in names]
            found = codes_in(codes)
            whole = len(found) // len(names)
            yield f"the codes {codes} in docs/MACHINE.md", None if found[::whole] == due and len(found) == whole * len(names) else f"{cell} have the codes {[f'{code:02X}' for code in due]}"
    missing = [name for name in orders if name not in seen and name not in ("En", "=En", "SET")]
    yield "the orders of docs/MACHINE.md", None if not missing else f"{missing} are in no table by code"


def numbers_in(row: str) -> List[str]:
    """The numbers of a row, without the points and commas in them."""
    return re.findall(r"\d+", row.replace(",", ""))


def lines_stand_in_the_table(read: Read, tables: dict) -> Cases:
    """The table of lines in docs/JOB.md has each form with its ranges, and the tables of kinds have each kind with its bounds."""
    page, job = read("docs/JOB.md"), tables["job"]
    rows: Dict[str, str] = {form: rest for cell, rest in re.findall(r"^\| ((?:`[^`]+`(?:, )?)+) \| (.*) \|$", page.partition("### The media")[0], re.MULTILINE) for form in re.findall(r"`([^`]+)`", cell)}
    forms = [job["header"], *(form for row in job["lines"] for form in (row["form"], row.get("also"), *row.get("pooled", [])) if form)]
    for form in forms:
        yield f"the line {form} of docs/JOB.md", None if form in rows else "isn't there"
    for row in job["lines"]:
        due = {f"{number}" for numbers in row.get("numbers", []) for number in numbers}
        if row["word"] != "SHOW":
            yield f"the numbers of {row['form']} in docs/JOB.md", None if due <= {*numbers_in(rows.get(row["form"], ""))} else f"aren't {sorted(due)}"
    media = dict(re.findall(r"^\| `(CR|MT|TR)` \| (.*) \|$", page, re.MULTILINE))
    for kind in job["kinds"]:
        bound = str(kind.get("longest", ""))
        yield f"the medium of {kind['kind']} in docs/JOB.md", None if bound in numbers_in(media.get(kind["kind"], "")) + [""] else f"has no bound {bound}"
        named = f"| {kind['kind']} | {kind['name']} |" in read("docs/MACHINE.md")
        claimed = "claimed_as" not in kind or f"{kind['claimed_as']} ({kind['kind']})" in read("docs/MACHINE.md")
        yield f"{kind['kind']} in docs/MACHINE.md", None if named and claimed else "isn't as in the table"
    entries = re.findall(r"`([A-Z]+ [^`]+)`", "".join(re.findall(r"^\| [A-Z][^|]* \| ((?:`[^`]+`(?:, )?)+) \|", page.partition("## The journal")[2].partition("## The report")[0], re.MULTILINE)))
    yield "the journal of docs/JOB.md", same([row["printed"] for row in tables["entries"]], entries)
    wrong = [row["printed"] for row in tables["entries"] if row["printed"].count(" ") != len(row["fields"])]
    yield "the fields of entries", None if not wrong else f"{wrong} have as many as other words"


def measures_stand_in_the_study(read: Read, tables: dict) -> Cases:
    """Each measure of a run stands in docs/STUDY.md, below what it is of, with the sentence of the table, and stats has it."""
    told = read("docs/STUDY.md").partition("## What stats tells\n")[2]
    parts = dict(re.findall(r"^\| measure of (?:a |the )(\w+) \| \|\n\|---\|---\|\n((?:\|.*\n)+)", told, re.MULTILINE))
    for row in tables["measures"]["measures"]:
        found = re.search(rf"^\| `{row['name']}\b.*` \| (.*) \|$", parts.get(row["of"], ""), re.MULTILINE)
        yield f"the measure {row['name']} of a {row['of']}", None if found and found[1] == row["says"] and f'"{row["name"]}' in read("tools/kdf9/measures.py") else "isn't in docs/STUDY.md or in stats as in the table"


CHECKS = (pages_are_made, measures_stand_in_the_study, orders_stand_in_their_groups, codes_stand_in_the_tables, lines_stand_in_the_table)
