"""The language server: a recorded exchange, every fault with its quick fix, formatting, nonsense, many edits, and how long it takes; and Neovim as its client."""
import json
import os
import pathlib
import random
import subprocess
import time
from typing import Callable, Dict, Iterator, Optional, Tuple

from editors_client import DECK, LanguageClient, command_in, in_folder, jobs
from editors_inside import LEFT_OUT
from toolkit import ENVIRONMENT, HEAD, ROOT, TAIL, document

from editing.faults import faults_of, fixes_of  # noqa: E402
from editing.features import edited  # noqa: E402
from editing.formatting import formatted  # noqa: E402
from editing.image import Image  # noqa: E402
from editing.texts import Text, decoded, of_bytes  # noqa: E402
from kdf9 import tables  # noqa: E402
from kdf9.deck import COMMENT  # noqa: E402

Cases = Iterator[Tuple[str, Optional[str]]]

# Decks with a fault: its name, the text there, and the first fix that is offered for it, if there is any.
DECK_FIXES = [
    ("PROGRAM;\n  ZERO;\t OUT;\nFINISH;\n", "BadByte", "\t", "Write spaces for all tabs"), ("PROGRAM;\r\n ZERO;\r\nFINISH;\n", "BadByte", "\r", "Remove all bytes 13"),
    ("PROGRAM; (é) ZERO; FINISH;\n", "BadByte", "Ã", "Remove this"), ("PROGRAM;\n ZERO; (adds\nFINISH;\n", "CommentOpen", "(adds\nFINISH;", "Write ) at the end of the line"),
    ("PROGRAM;\n  ZERO;\nFINISH\n", "NoSemicolon", "FINISH", "Write ;"), ("PROGRAM; SET 5; DUPP; FINISH;\n", "UnknownOrder", "DUPP", "Write DUP"),
    ("PROGRAM; zero; FINISH;\n", "UnknownOrder", "zero", "Write ZERO"), ("PROGRAM; SET 5 SET 7; FINISH;\n", "UnknownOrder", "SET 5 SET 7", "Write ; after SET 5"),
    ("PROGRAM;\n1: ZERO; J1; FINISH;\n", "UnknownOrder", "1: ZERO", "Write ; for :"), ("PROGRAM; SET 1; DUP; MUL; FINISH;\n", "UnknownOrder", "MUL", "Write XD; CONT"),
    ("PROGRAM;\n +F; FINISH;\n", "Floating", "+F", None), ("PROGRAM;\nSET 40000; FINISH;\n", "BadNumber", "SET 40000", "Write SET 32767"),
    ("PROGRAM; Q16; FINISH;\n", "QRange", "Q16", "Write Q15"), ("PROGRAM V0; V0=140737488355328; FINISH;\n", "ConstantRange", "V0=140737488355328", None),
    ("PROGRAM V0;\nZERO;\n V0=1; FINISH;\n", "BadHeading", "V0=1", "Move it below PROGRAM V0"), ("ZERO; FINISH;\n", "BadHeading", "ZERO", "Write PROGRAM;"),
    ("PROGRAM;\nZERO;\n", "NoFinish", "", "Write FINISH;"), ("PROGRAM; ZERO;\nFINISH; ZERO;\n", "AfterFinish", "ZERO", "Remove what comes after FINISH;"),
    ("PROGRAM; 1; J1;\n  1; FINISH;\n", "ReferenceTwice", "1", "Write 2"), ("PROGRAM; 1;\n    J2; FINISH;\n", "ReferenceMissing", "J2", "Write J1"),
    ("PROGRAM;\nP1; ZERO;\nP1; ZERO; FINISH;\n", "PartTwice", "P1", "Write P2"), ("PROGRAM;\n ZERO; JSP3; FINISH;\n", "PartMissing", "JSP3", "Open part 3"),
    ("PROGRAM V1;\n  V2; FINISH;\n", "VRange", "V2", "Write PROGRAM V2"), ("Y1; PROGRAM;\nY0; YB0; FINISH;\n", "YRange", "YB0", "Declare YB0"),
    ("PROGRAM; 1;\nDC1; J1C1NZS; FINISH;\n", "ShortLoopFar", "J1C1NZS", "Write *; before the loop"),
    ("Y8191; PROGRAM; FINISH;\n", "TooLarge", "", None),
]

# Jobs with a fault: its name, and the first fix that is offered for it, if there is any.
SOUND = HEAD + TAIL
JOB_FIXES = [
    (SOUND.replace("ENDJOB\n", ""), "BadLine", "Write ENDJOB"), (SOUND.replace("ENDDECK\n", ""), "BadLine", "Write ENDDECK"), (SOUND.replace("KDF9", "kdf9"), "Header", "Write KDF9 JOB 1"),
    (SOUND.replace("64", "65"), "SizeNotGroups", "Write STORE 64"), (SOUND.replace("ORDERS 10", "ORDERS  10"), "BadLine", "Write ORDERS 10"),
    (SOUND.replace("ORDERS 10", "ORDERS 010"), "BadNumber", "Write ORDERS 10"), (SOUND.replace("ORDERS 10", "ORDERS 99999999"), "BadNumber", "Write ORDERS 20000000"),
    (SOUND.replace("ORDERS 10", "ORDRES 10"), "BadLine", "Write ORDERS 10"), (HEAD + "DEVICE 3 TR\nDEVICE 3 TP\n" + TAIL, "DeviceTwice", "Write DEVICE 0 TP"),
    (HEAD + "DEVICE 3 MT a-b\n" + TAIL, "BadLabel", "Write DEVICE 3 MT AB"), (HEAD + "DEVICE 3 TR\n+abc\n" + TAIL, "BadMedium", "Write +ABC"),
    (HEAD + "SHOW 3 2\n" + TAIL, "ShowRange", "Write SHOW 2 3"), (HEAD + "SHOW 3 99\n" + TAIL, "ShowRange", "Write SHOW 3 63"),
    (HEAD + "SCHEDULE\nCLOCK 10\nCLOCK 9\nENDJOB\n", "ClockFalls", "Write CLOCK 10"), (HEAD + "POOL\nDEVICE 9 TR\n" + TAIL, "PoolKind", None),
    (SOUND.replace("PROGRAM;", "Y99; PROGRAM;"), "TooLarge", "Write STORE 128"),
]

# Where the deck of editors_client is asked about, and parts of what is said there.
HOVERS = [
    ("SET 5", ["at 3/0: `E0 00 05`", "octal `0000000000000005`", "### `SET`"]), ("V0 = 10", ["octal `0000000000000012`, decimal 10", "address 1"]), ("J1P7C2NZ", ["reference 1 of part 7, line 7", "### `JrCqNZ`", "Q2"]),
    ("= Y A 2", ["YA2, line 1 is the word at address 14", "### `=En`"]), ("V0 = Q1/-2/AYA1", ["as a Q-store 1/65534/13: counter 1; increment 65534; modifier 13"]),
    ("1; V0; =V", ["reference 1 of part 7, at 9/0; named 1 time"]), ("P7 V0", ["opens a part", "part 7"]), ("Y0; YA3", ["declares Y-stores"]),
]

# What isn't a message, and how many errors come of it.
NONSENSE = [
    (b"\n", 0), (b"hello\r\n\r\n", 0), (b"Content-Length: x\r\n\r\n", 0), (b"Content-Length: 999999999\r\n\r\n", 0), (b"Content-Length: 2\r\n\r\n{]", 1),
    (b"Content-Length: 3\r\n\r\n\xff\xfe\xfd", 1), (b"Content-Length: 2\r\n\r\n[]", 1), (b"Content-Length: 2\r\n\r\n{}", 1), (b"Content-Length: 60\r\n\r\n{\"jsonrpc\":\"2.0\",\"id\":1,\"met", 1),
    (b"Content-Length: 4\r\nContent-Type: x\r\n\r\nnull", 1), (b"X" * 100000 + b"\r\n\r\n", 0), (b"\x00" * 5000 + b"\n", 0),
    (b"Content-Length: 100000\r\n\r\n" + b"[" * 100000, 1),
]

# Requests with parameters that aren't those of their method.
BAD_PARAMETERS = [
    ("textDocument/hover", {}), ("textDocument/hover", {"textDocument": {"uri": "file:///no"}, "position": {}}), ("textDocument/hover", {"textDocument": 5}),
    ("textDocument/rename", {"textDocument": {"uri": "file:///a.usercode"}, "position": {"line": 3, "character": 0}}), ("no/method", {}),
    ("textDocument/formatting", {"textDocument": {"uri": 7}}), ("textDocument/codeAction", {"textDocument": {"uri": "file:///a.usercode"}, "range": None}),
    ("textDocument/semanticTokens/range", {"textDocument": {"uri": "file:///a.usercode"}, "range": {"start": 1}}),
]

# How long an answer may take, in seconds of a processor, over a deck of 10,000 bytes and over one of 1 MB; a slow machine takes some times as long.
SIZES, SLOWER = {10_000: 0.05, 1_000_000: 1.0}, 3

VIMRC = """set rtp^={root}/editors/vim
let g:kdf9 = "{command}"
filetype plugin on
"""
NVIM = """edit {file}
lua << EOF
local told = {{}}
local function wait(what, is_there) told[what] = vim.wait(30000, is_there, 20) end
local function ask(method, params) local r = vim.lsp.buf_request_sync(0, method, params, 30000); return r and r[1] and r[1].result end
wait("attached", function() return #vim.tbl_keys(vim.lsp.buf_get_clients(0)) > 0 and vim.lsp.buf_get_clients(0)[1].initialized end)
vim.api.nvim_win_set_cursor(0, {{4, 4}})
local params = vim.lsp.util.make_position_params()
told.hover = ask("textDocument/hover", params).contents.value
vim.lsp.buf.definition()
wait("moved", function() return vim.api.nvim_win_get_cursor(0)[1] == 7 end)
vim.lsp.buf.rename("5")
wait("renamed", function() return vim.api.nvim_buf_get_lines(0, 3, 4, false)[1]:find("J5P7") ~= nil end)
told.part = vim.api.nvim_buf_get_lines(0, 6, 7, false)[1]
vim.lsp.buf.formatting_sync()
told.formatted = vim.api.nvim_buf_get_lines(0, 3, 4, false)[1]
told.symbols = #ask("textDocument/documentSymbol", {{ textDocument = params.textDocument }})
vim.api.nvim_buf_set_lines(0, 4, 5, false, {{ "  *; Y0; J1=Z; ZEROO; OUT;" }})
wait("faulty", function() return #vim.diagnostic.get(0) == 1 end)
told.fault = vim.diagnostic.get(0)[1]
told.actions = ask("textDocument/codeAction", {{ textDocument = params.textDocument, range = {{ start = {{ line = 4, character = 0 }}, ["end"] = {{ line = 4, character = 20 }} }}, context = {{ diagnostics = {{}} }} }})
vim.lsp.util.apply_workspace_edit(told.actions[1].edit, "utf-16")
wait("mended", function() return #vim.diagnostic.get(0) == 0 end)
told.text = table.concat(vim.api.nvim_buf_get_lines(0, 0, -1, false), "\\n")
vim.fn.writefile({{ vim.json.encode(told) }}, "{told}")
EOF
qall!
"""


def at(text: str, part: str) -> Tuple[int, int]:
    """The line and the character at which a part of a text begins, from 0."""
    before = text[:text.index(part)]
    return before.count("\n"), len(before) - before.rfind("\n") - 1


def an_exchange() -> Cases:
    """What an editor asks of a deck, from initialize to shutdown."""
    client, uri = LanguageClient(), "file:///a.usercode"
    yield "initialize", None if client.able["capabilities"]["positionEncoding"] == "utf-16" else f"{client.able}"
    client.open(uri, DECK)
    yield "a deck without a fault", None if client.faults(uri) == [] else "has faults"
    for part, said in HOVERS:
        line, character = at(DECK, part)
        found = client.at("hover", uri, line, character)
        value = found["contents"]["value"] if found else ""
        yield f"what is said of {part}", None if all(each in value for each in said) else f"{value[:400]} without {said}"
    yield from names_are_found(client, uri)
    line, character = at(DECK, "SET 5")
    labels = [item["label"] for item in client.at("completion", uri, line, character)["items"]]
    there = {"Y0", "=YA3", "V1", "V0P7", "J1", "JSP7", "ZERO", "JrGTZ", *(order["name"] for order in tables.table("orders")["orders"])}
    yield "what is offered", None if there <= {*labels} else f"{there - {*labels}} isn't"
    outline = client.ask("textDocument/documentSymbol", textDocument={"uri": uri})
    names = [(each["name"], [below["name"] for below in each["children"]]) for each in outline]
    yield "the outline", None if names == [("Y0", []), ("YA3", []), ("PROGRAM V1", ["V1", "V0", "V1", "1"]), ("P7 V0", ["V0", "V0", "1"])] else f"{names}"
    edits = client.ask("textDocument/formatting", textDocument={"uri": uri}, options={})
    yield "the form", None if [edit["newText"] for edit in edits] == ["1; J1P7C2NZ; JSP7; SHA-3; =YA2;"] else f"{edits}"
    data = client.ask("textDocument/semanticTokens/full", textDocument={"uri": uri})["data"]
    yield "the tokens", None if data[:15] == [0, 0, 1, 3, 0, 0, 1, 1, 4, 0, 0, 3, 2, 3, 0] and len(data) % 5 == 0 else f"{data[:20]}"
    client.tell("textDocument/didClose", textDocument={"uri": uri})
    yield "a deck that is closed", None if client.faults(uri) == [] else "keeps its faults"
    yield "shutdown and exit", None if client.shut_down() == (0, b"") else "end otherwise"
    early = LanguageClient()
    early.tell("exit")
    status, err = early.end()
    yield "exit without shutdown", None if status == 1 and err.count(b"\n") == 1 else f"{status} {err}"


def names_are_found(client: LanguageClient, uri: str) -> Cases:
    """Definitions, uses and renaming."""
    line, character = at(DECK, "1P7C2")
    found = client.at("definition", uri, line, character)
    yield "where reference 1 of part 7 is", None if found["range"]["start"] == {"line": 6, "character": 0} else f"{found}"
    found = client.at("references", uri, 6, 0, context={"includeDeclaration": True})
    yield "the uses of reference 1 of part 7", None if [each["range"]["start"]["line"] for each in found] == [3, 6] else f"{found}"
    found = client.at("rename", uri, 6, 0, newName="5")
    yield "reference 1 of part 7 as 5", None if [edit["newText"] for edit in found["changes"][uri]] == ["5", "5"] else f"{found}"
    line, character = at(DECK, "P7 V0")
    found = client.at("rename", uri, line, character, newName="P8")
    yield "part 7 as 8", None if len(found["changes"][uri]) == 3 and {edit["newText"] for edit in found["changes"][uri]} == {"8"} else f"{found}"
    for where, new, says in [(("1; J1P7"), "x", "isn't a number"), ("1; J1P7", "10000", "from 1 to 9999"), ("PROGRAM", "3", "no name"), ("YA3", "1", "already"), ("YA3", "0", "would have a fault")]:
        line, character = at(DECK, where)
        found = client.at("rename", uri, line, character, newName=new)
        yield f"{where} as {new}", None if says in found.get("error", {}).get("message", "") else f"{found}"


def faults_have_fixes() -> Cases:
    """Each kind of fault is told at its place, and the first fix takes it away; no kind is left out."""
    told = [(text, name, part, title, False) for text, name, part, title in DECK_FIXES] + [(text, name, None, title, True) for text, name, title in JOB_FIXES]
    for deck, name, part, title, is_job in told:
        text = Text(of_bytes(deck), is_job)
        fault = faults_of(text)[0]
        fixes = fixes_of(text, fault)
        good = (fault.name, fixes[0].title if fixes else None) == (name, title) and part in (None, text.text[fault.start:fault.end])
        yield f"the fault {name} in {deck[:40]!r}", None if good else f"{fault} {[fix.title for fix in fixes]}"
        if fixes:
            mended = edited(text.text, fixes[0].edits, 0, len(text.text))
            names = [each.name for each in faults_of(Text(mended, is_job))]
            yield f"the fix {title} of {name}", None if name not in names or name == "BadByte" else f"{names} in {mended!r}"
    missing = {*tables.faults("deck")} - {name for _, name, *_ in DECK_FIXES}
    yield "the faults of a deck that are tried", f"without {missing}" if missing else None


def form_keeps_the_image() -> Cases:
    """Formatting keeps the image of every example and of the decks of docs/USERCODE.md, also of those whose spaces and lines chance has changed; and twice is once."""
    decks = [text.of_deck(deck) for text in (Text(path.read_text(encoding="latin-1"), True) for path in jobs()) for deck in text.decks] + [DECK]
    decks += [block.partition("\n")[2] for block in document("USERCODE.md").split("```deck")[1:] for block in [block.partition("```")[0]]]
    chance = random.Random(9)
    wrong, tried = [], 0
    for deck in decks:
        before = Image(deck, 8192).facts
        for text in [deck, spread(deck, chance), spread(deck, chance)]:
            new, tried = formatted(text), tried + 1
            after = Image(new, 8192).facts
            same = before["kind"] == after["kind"] and before.get("words") == after.get("words") and before.get("name") == after.get("name")
            comments = COMMENT.findall(text) == COMMENT.findall(new)
            if not (same and comments and formatted(new) == new) and before.get("name") not in ("BadByte", "NoSemicolon"):
                wrong.append((text, new))
    yield f"the form of {tried} decks", f"{wrong[0]} and {len(wrong) - 1} more" if wrong else None
    for deck in ["PROGRAM; ZERO;\nENDDECK \nFINISH;\n", "PROGRAM; (\nENDDECK \n) FINISH;\n", "END\nDECK", "", "(", "\n\n", "é\xa0;\n", "PROGRAM;\t\x85;\n"]:
        new = formatted(of_bytes(deck))
        yield f"the form of {deck!r}", None if "ENDDECK" not in new.split("\n") and new.replace(" ", "").replace("\t", "") == of_bytes(deck).replace(" ", "").replace("\t", "") else f"{new!r}"


def spread(deck: str, chance: random.Random) -> str:
    """A deck with other spaces and newlines outside of its comments."""
    made, is_comment = [], False
    for character in deck:
        is_comment = character == "(" or is_comment and character != ")"
        if not is_comment and character == " ":
            character = chance.choice(["", " ", "  ", "\n"])
        made.append(character)
        if not is_comment and chance.random() < 0.05:
            made.append(chance.choice([" ", "   ", "\n"]))
    return "".join(made)


def nonsense_is_survived() -> Cases:
    """What is no message, and what no request is, gets an error or nothing, and the server stays."""
    client, uri = LanguageClient(), "file:///a.usercode"
    client.open(uri, DECK)
    for number, (data, errors) in enumerate(NONSENSE):
        client.told.clear()
        client.write(data)
        hover = client.at("hover", uri, 2, 3)
        if b"\"met" in data:
            hover = hover or client.at("hover", uri, 2, 3)
        found = [each for each in client.told if "error" in each and each["id"] is None]
        yield f"nonsense {number}, {data[:30]!r}", None if len(found) == errors and hover and "contents" in hover else f"{found} {hover}"
    for method, params in BAD_PARAMETERS:
        answer = client.ask(method, **params)
        yield f"{method} of {params}", None if isinstance(answer, dict) and "error" in answer else f"{answer}"
    client.tell("textDocument/didChange", textDocument={"uri": uri}, contentChanges=[{"text": 5}, {"range": {}, "text": ""}])
    client.tell("textDocument/didOpen", textDocument={"uri": uri, "languageId": "usercode", "version": 2, "text": DECK})
    client.send({"jsonrpc": "2.0", "id": 900, "method": "textDocument/hover", "params": {"textDocument": {"uri": uri}, "position": {"line": 2, "character": 3}}})
    client.send({"jsonrpc": "2.0", "method": "$/cancelRequest", "params": {"id": 900}})
    answer = client.answer(900)
    yield "a request that is taken back", None if "contents" in answer or answer.get("error", {}).get("code") == -32800 else f"{answer}"
    yield "after all that", None if client.shut_down() == (0, b"") else "it ended otherwise"


def many_edits_are_taken() -> Cases:
    """100 edits a second, of letters beside ASCII too, leave the text that the editor has; faults are told meanwhile; and what is cut off ends the server without a word."""
    client, uri, chance = LanguageClient(), "file:///a.job", random.Random(3)
    text = (ROOT / "examples" / "adds-cards.job").read_text(encoding="ascii")
    client.open(uri, text, "kdf9-job")
    began, lines = time.monotonic(), text.split("\n")
    for version in range(200):
        line = chance.randrange(len(lines))
        start = chance.randrange(len(lines[line]) + 1)
        end, new = chance.randrange(start, min(len(lines[line]), start + 3) + 1), chance.choice(["", "5;", "é", "𝄞", "Y0", "("])
        change = {"range": {"start": {"line": line, "character": halves(lines[line][:start])}, "end": {"line": line, "character": halves(lines[line][:end])}}, "text": new}
        lines[line] = lines[line][:start] + new + lines[line][end:]
        client.tell("textDocument/didChange", textDocument={"uri": uri, "version": version}, contentChanges=[change])
        time.sleep(max(0.0, began + version / 100 - time.monotonic()))
    client.tell("textDocument/didChange", textDocument={"uri": uri}, contentChanges=[])
    own = Text(of_bytes("\n".join(lines)), True)
    due = [(fault.name, own.line_of(fault.start)) for fault in faults_of(own)]
    client.ask("textDocument/documentSymbol", textDocument={"uri": uri})
    while True:
        found = client.faults(uri)
        told = [(each["code"], each["range"]["start"]["line"]) for each in found]
        if told == due:
            break
    yield "the faults after 200 edits", None if told == due else f"{told} in place of {due} in {decoded(own.text)}"
    client.write(b"Content-Length: 100\r\n\r\n{")
    yield "a message that is cut off", None if client.end() == (0, b"") else "ends it otherwise"


def halves(text: str) -> int:
    """How many halves of UTF-16 a text has."""
    return len(text.encode("utf-16-le")) // 2


def long_deck(size: int) -> str:
    """A deck without a fault of this many bytes."""
    row = "  V1; SET 5; +; =V2; (a line of the deck, which says what it does and why it does that, in so many words)\n"
    few = "  (and some lines have nothing but a comment, as in a program that somebody has to read after years, or somebody else)\n"
    rows = (size - 60) // (len(row) + 9 * len(few)) + 1
    return "Y9;\nPROGRAM V3;\n" + (row + 9 * few) * rows + "1; J1; ZERO; OUT;\nFINISH;\n"


def times_over(client: LanguageClient, size: int) -> Dict[str, float]:
    """How many seconds of a processor each answer takes over a deck of this many bytes, of which nothing is known: the median of a few."""
    uri, deck = f"file:///{size}.usercode", long_deck(size)
    client.open(uri, deck)
    client.faults(uri)
    middle, span = deck.count("\n") // 20 * 10, {"start": {"line": 0, "character": 0}, "end": {"line": 60, "character": 0}}
    asked = {
        "faults": lambda: client.faults(uri), "hover": lambda: client.at("hover", uri, middle + 2, 8), "definition": lambda: client.at("definition", uri, deck.count("\n") - 2, 4),
        "references": lambda: client.at("references", uri, middle + 2, 3, context={"includeDeclaration": True}), "completion": lambda: client.at("completion", uri, middle + 2, 2),
        "tokens": lambda: client.ask("textDocument/semanticTokens/range", textDocument={"uri": uri}, range=span),
        "outline": lambda: client.ask("textDocument/documentSymbol", textDocument={"uri": uri}), "form": lambda: client.ask("textDocument/formatting", textDocument={"uri": uri}),
    }
    return {name: sorted(busy(client, lambda: (edit(client, uri), ask())) for _ in range(3))[1] for name, ask in asked.items()}


def answers_are_quick() -> Cases:
    """An answer over a deck of 10,000 bytes takes 50 ms of a processor, and over one of 1 MB a second; what is measured is the median of a few."""
    client = LanguageClient()
    for size, bound in SIZES.items():
        times = times_over(client, size)
        late = {name: round(seconds, 3) for name, seconds in times.items() if seconds > SLOWER * bound}
        yield f"how long it takes over {size} bytes", f"{late}" if late else None
    client.shut_down()


def busy(client: LanguageClient, work: Callable[[], object]) -> float:
    """How many seconds of a processor the server takes for some work; other programs may keep it waiting for longer."""
    before = seconds_of(client.process.pid)
    work()
    return seconds_of(client.process.pid) - before


def seconds_of(process: int) -> float:
    """How many seconds of a processor a process has taken, with those that it has started and that have ended."""
    ticks = pathlib.Path(f"/proc/{process}/stat").read_text(encoding="ascii").rpartition(")")[2].split()[11:15]
    return sum(map(int, ticks)) / os.sysconf("SC_CLK_TCK")


def edit(client: LanguageClient, uri: str) -> None:
    """Changes a letter of a comment, so that nothing is known of the deck."""
    place = {"line": 3, "character": 10}
    client.tell("textDocument/didChange", textDocument={"uri": uri}, contentChanges=[{"range": {"start": place, "end": place}, "text": "x"}])


def neovim_is_a_client() -> Cases:
    """Neovim's own client, with the plugin of editors/vim: hover, definition, rename, form, outline, a fault and its fix."""
    if "nvim" in LEFT_OUT:
        return
    with in_folder() as folder:
        file, told, script, own = (pathlib.Path(folder, name) for name in ("a.usercode", "told.json", "script.vim", "vimrc"))
        file.write_text(DECK, encoding="ascii")
        own.write_text(VIMRC.format(root=ROOT, command=command_in(folder)), encoding="utf-8")
        script.write_text(NVIM.format(file=file, told=told), encoding="utf-8")
        words = ["nvim", "--headless", "-u", str(own), "-i", "NONE", "-n", "-S", str(script)]
        done = subprocess.run(words, cwd=folder, env={**ENVIRONMENT, "HOME": folder, "XDG_STATE_HOME": folder, "XDG_CACHE_HOME": folder}, capture_output=True, text=True, timeout=300, check=False)
        if not told.is_file():
            yield "Neovim as a client", f"{done}"
            return
        found = json.loads(told.read_text(encoding="utf-8"))
    for name in ("attached", "moved", "renamed", "faulty", "mended"):
        yield f"Neovim: {name}", None if found[name] else f"{found}"
    yield "Neovim: hover", None if "reference 1 of part 7" in found["hover"] else f"{found['hover']}"
    yield "Neovim: the part after the rename", None if found["part"] == "5; V0; =V1P0; EXIT 1;" else f"{found['part']}"
    yield "Neovim: the form", None if found["formatted"] == "1; J5P7C2NZ; JSP7; SHA-3; =YA2;" else f"{found['formatted']}"
    yield "Neovim: the outline", None if found["symbols"] == 4 else f"{found['symbols']}"
    fault = found["fault"]
    yield "Neovim: the fault", None if (fault["code"], fault["lnum"], fault["col"]) == ("UnknownOrder", 4, 15) else f"{fault}"
    yield "Neovim: the fix", None if "ZERO; OUT" in found["text"] and found["actions"][0]["title"] == "Write ZERO" else f"{found}"


SUITES = (an_exchange, faults_have_fixes, form_keeps_the_image, nonsense_is_survived, many_edits_are_taken, answers_are_quick, neovim_is_a_client)
