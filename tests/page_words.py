"""Tries how words are shown: by their names without a line SHOW, those that changed first, and in each view."""
import json

from slips import job

DECK = "YA2;\nPROGRAM V3; V0 = 7; V1 = PHELLO; V2 = Q1/2/65535;\n  SET 9; =V3; SET-1; =YA1; ZERO; OUT;\nFINISH;"

# A deck whose array of 61 stores begins at address 6, what can be typed to show its words, the lines that the job gets, and what is said.
ARRAY = "YA60;\nPROGRAM V1; V0 = 7;\n  SET 9; =YA3; SET-1; =YA60; ZERO; OUT;\nFINISH;"
NAMED = [
    ("YA0 to YA60", ["SHOW 6 66"], "SHOW 6 66"), ("ya", ["SHOW 6 66"], "SHOW 6 66"), ("V1 YA3", ["SHOW 2 9"], "SHOW 2 9"), ("E3, V0", ["SHOW 3 3", "SHOW 1 1"], "SHOW 3 3, SHOW 1 1"),
]

# The rows of each table of words that can be seen, without its head.
TABLES = """[...document.querySelectorAll('#sections .words')].map((it) => [it.caption.textContent,
    ...[...it.querySelectorAll('tbody tr')].map((row) => [...row.cells].filter((cell) => getComputedStyle(cell).display !== 'none').map((cell) => cell.textContent))])"""


def octal(word):
    return f"{word % 2 ** 48:016o}"


def declared_words_are_shown(shown):
    """The words that the deck declares are there without SHOW: those that the run changed come first, and the others are folded."""
    shown.write_job(job(DECK))
    shown.run("run")
    changed = [["V3", "4", octal(9), "9"], ["YA1", None, octal(-1), "-1"]]
    first, rest = shown.js(TABLES)
    seen = [[name, None if name == "YA1" else address, *values] for name, address, *values in first[1:]]
    yield "words that changed", None if first[0] == "Words" and seen == changed else f"{first}"
    names = [row[0] for row in rest[1:]]
    yield "words that didn't change", None if rest[0] == "Unchanged words" and names == ["V0", "V1", "V2", "YA0", "YA2"] else f"{rest}"
    summary = shown.js("document.querySelector('#sections section details summary').textContent")
    yield "how many they are", None if summary == "5 words that the run left unchanged" else summary
    shown.write_job(job(DECK, "SHOW 1 2\n"))
    shown.run("run")
    names = [row[0] for row in shown.js(TABLES)[0][1:]]
    yield "words that the job shows", None if names == ["V3", "YA1", "V0", "V1"] else f"{names}"
    yield "the text stays that of the program", None if shown.js("kdf9.text()").count("\nWORD ") == 2 else shown.js("kdf9.text()")


def arrays_have_tables(shown):
    """An array is a table of ten words to a row. What the run changed has a dot, and each word is there in octal too."""
    shown.write_job(job(ARRAY, store=96))
    shown.run("run")
    caption, heads, rows = shown.js("""(([it]) => [it.caption.textContent, [...it.tHead.rows[0].cells].map((cell) => cell.textContent),
        [...it.tBodies[0].rows].map((row) => [...row.cells].map((cell) => cell.innerText))])(document.querySelectorAll('#sections .array'))""")
    good = caption == "YA0 to YA60: the run changed 2 words, which have a dot" and heads == ["", *(f"+{at}" for at in range(10))] and [row[0] for row in rows] == [f"YA{at}" for at in range(0, 70, 10)]
    yield "the table of an array", None if good else f"{caption} {heads} {rows}"
    changed = {(row[0], at): cell for row in rows for at, cell in enumerate(row[1:]) if cell != "0"}
    yield "what the run changed in it", None if changed == {("YA0", 3): "• 9", ("YA60", 0): "• -1"} and len(rows[-1]) == 2 else f"{changed}"
    words = [row for row in shown.js(TABLES) if row[0] == "YA0 to YA60"][0]
    yield "the array in octal", None if len(words) == 62 and words[4][0] == "YA3" and words[4][2] == octal(9) else f"{words[:5]}"


def shows_take_names(shown):
    """The words to be shown can be typed by their names: the job gets their addresses. A name that isn't there is said, and in the whole text a button writes the line."""
    shown.write_job(job(ARRAY, store=96))
    shown.view("parts")
    control = "document.querySelector('.slot input[placeholder]')"
    for typed, due, said in (*NAMED, ("YA61", NAMED[-1][1], "This deck has no store YA61."), ("YA0 to V0 to V1", NAMED[-1][1], "YA0 to V0 to V1 isn't one store or two.")):
        shown.js(f"(() => {{ const it = {control}; it.focus(); it.value = {json.dumps(typed)}; it.dispatchEvent(new Event('input')); }})()")
        shown.page.wait(f"{control}.parentElement.nextElementSibling.textContent === {json.dumps(said)}")
        got = [line for line in shown.js("kdf9.job()").split("\n") if line.startswith("SHOW ")]
        yield f"what {typed} shows", None if got == due else f"{got}"
    shown.js(f"(() => {{ const it = {control}; it.value = 'YA3'; it.dispatchEvent(new Event('input')); }})()")
    shown.page.wait("kdf9.job().includes('\\nSHOW 9 9\\n')")
    shown.js(f"{control}.onchange()")
    yield "the field has numbers once it is left", None if shown.js(f"{control}.value") == "9 9" else shown.js(f"{control}.value")
    shown.write_job(job(ARRAY, "SHOW 1 2\nSHOW YA0 YA60\n", store=96))
    shown.run("run")
    shown.js("[...document.querySelectorAll('.fault button')].find((it) => it.textContent === 'Write SHOW 6 66').click()")
    yield "the whole text gets the line too", None if shown.js("kdf9.job()") == job(ARRAY, "SHOW 1 2\nSHOW 6 66\n", store=96) else shown.js("kdf9.job()")


def words_have_views(shown):
    """A word is shown as its characters, as a Q-store and as two halves, all as they are reckoned here."""
    shown.write_job(job(DECK))
    shown.run("run")
    due = {"characters": {"V1": "HELLO   ", "V0": "       '"}, "Q-store": {"V2": "1/2/65535", "V0": "0/0/7"}, "halves": {"YA1": "-1, -1", "V0": "0, 7", "V2": f"{2 ** 8:,}, {0x2FFFF:,}"}}
    for view, words in due.items():
        shown.js(f"(() => {{ const it = document.querySelector('#sections select'); it.value = {json.dumps(view)}; it.onchange(); }})()")
        rows = {row[0]: row[-1] for table in shown.js(TABLES) for row in table[1:]}
        seen = {name: rows.get(name) for name in words}
        yield f"words as {view}", None if seen == words else f"{seen} in place of {words}"
    shown.js("(() => { const it = document.querySelector('#sections select'); it.value = ''; it.onchange(); })()")
    yield "no other view", None if len(shown.js(TABLES)[0][1]) == 4 else f"{shown.js(TABLES)}"


def empty_jobs_have_many_calls(shown):
    """An empty job has calls enough for a beginner, and the page says how many were made."""
    shown.choose("example", "empty")
    text, status = shown.run("run")
    used = shown.js("document.querySelector('.used').textContent")
    good = status == 0 and "\nENDED 0\n" in text and "ORDERS 100000\n" in shown.js("kdf9.job()") and used == "The run made 3 of the 100,000 calls of its schedule."
    yield "an empty job", None if good else f"{used} {text}"


SUITES = declared_words_are_shown, arrays_have_tables, shows_take_names, words_have_views, empty_jobs_have_many_calls
