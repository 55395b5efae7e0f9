"""The debug adapter, by a client that speaks its protocol: breakpoints, steps forward and back, watched words, threads, values, the journal, and nonsense."""
import pathlib
from typing import Iterator, List, Optional, Tuple

from editors_client import DebugClient, in_folder
from toolkit import ROOT, job_of_deck

Cases = Iterator[Tuple[str, Optional[str]]]

# A job of the examples, what is done, and where that comes to: each command with why the run stops there and at which statement.
WALK = [
    ("walks-over-a-table", [(10, None)], [
        ("continue", "breakpoint", "10 M0M1Q at 7/0"), ("stepIn", "step", "10 + at 7/2"), ("next", "step", "10 J1C1NZ at 7/3"), ("continue", "breakpoint", "10 M0M1Q at 7/0"),
        ("stepBack", "step", "10 J1C1NZ at 7/3"), ("stepBack", "step", "10 + at 7/2"), ("reverseContinue", "breakpoint", "10 M0M1Q at 7/0"), ("reverseContinue", "entry", "6 (to the main part) at 0/0"),
        ("stepBack", "entry", "6 (to the main part) at 0/0"),
    ]),
    ("walks-over-a-table", [(10, 11), (11, 9)], [
        ("continue", "breakpoint", "10 + at 7/2"), ("continue", "breakpoint", "10 + at 7/2"), ("continue", "breakpoint", "10 + at 7/2"), ("continue", "breakpoint", "10 + at 7/2"),
        ("continue", "breakpoint", "11 ZERO at 8/3"), ("reverseContinue", "breakpoint", "10 + at 7/2"), ("continue", "breakpoint", "11 ZERO at 8/3"),
        ("continue", "pause", "11 (no statement) at 8/5"), ("reverseContinue", "breakpoint", "11 ZERO at 8/3"), ("continue", "pause", "11 (no statement) at 8/5"), ("continue", "terminated", ""),
    ]),
    ("subroutine", [(6, None)], [
        ("stepIn", "step", "7 SET 3 at 1/0"), ("stepIn", "step", "7 JSP1 at 1/3"), ("stepIn", "step", "10 DUP at 3/0"), ("stepOut", "step", "8 = Y0 at 2/0"), ("stepBack", "step", "11 EXIT 1 at 3/2"),
        ("reverseContinue", "breakpoint", "7 SET 3 at 1/0"), ("next", "step", "7 JSP1 at 1/3"), ("next", "step", "8 = Y0 at 2/0"),
    ]),
    ("adds-to-nothing", [], [("continue", "exception", "5 + at 1/3"), ("continue", "pause", "5 + at 1/3"), ("stepBack", "step", "5 + at 1/3"), ("stepBack", "step", "5 SET 5 at 1/0")]),
]

# What is launched and can't be, and what is said of it.
NOT_LAUNCHED = [
    ({}, "needs program"), ({"program": "no/such/file"}, "no/such/file: No such file or directory"), ({"program": "-"}, "needs program"), ({"program": "README.md"}, "README.md:1:1: Header: "),
    ({"program": "examples/missing-reference.job"}, "examples/missing-reference.job:7:3: ReferenceMissing: The part"),
]

# Requests that can't be done once a job is launched.
NOT_DONE = [
    ("no", {}), ("stackTrace", {}), ("stackTrace", {"threadId": 9}), ("next", {}), ("stepIn", {"threadId": 9}), ("stepBack", {"threadId": 0}), ("pause", {}),
    ("variables", {"variablesReference": "x"}), ("variables", {}), ("evaluate", {"expression": "Q"}), ("evaluate", {}),
    ("setDataBreakpoints", {"breakpoints": [{"dataId": "x"}]}), ("setBreakpoints", {"breakpoints": [{}]}), ("scopes", {"frameId": None}),
]


def launched(job: str, **arguments: object) -> DebugClient:
    """A client that has launched a job of the examples."""
    client = DebugClient()
    client.ask("launch", program=f"examples/{job}.job", **arguments)
    client.event("initialized")
    return client


def runs_go_forward_and_back() -> Cases:
    """Breakpoints at statements, steps, and the way back."""
    for job, places, moves in WALK:
        client = launched(job)
        asked = [{"line": line} if column is None else {"line": line, "column": column} for line, column in places]
        told = client.ask("setBreakpoints", source={"path": f"examples/{job}.job"}, breakpoints=asked)["breakpoints"]
        yield f"the breakpoints of {job}", None if all(each["verified"] for each in told) else f"{told}"
        client.ask("configurationDone")
        entry = client.event("stopped")["body"]
        yield f"{job} stops before its first call", None if entry["reason"] == "entry" else f"{entry}"
        for number, (command, reason, place) in enumerate(moves, 1):
            found = client.go(command)
            yield f"{job}, move {number}: {command}", None if found == (reason, place) else f"{found} in place of {(reason, place)}"
        client.ask("disconnect")
        yield f"{job} ends", None if client.end() == (0, b"") else "otherwise"


def values_are_shown() -> Cases:
    """The registers, stores and devices of a program, and what a name is worth."""
    client = launched("walks-over-a-table")
    client.ask("setBreakpoints", source={}, breakpoints=[{"line": 11}])
    client.ask("configurationDone")
    client.event("stopped")
    client.go("continue")
    frame = client.ask("stackTrace", threadId=1)["stackFrames"][0]["id"]
    values = {
        scope["name"]: {each["name"]: each["value"] for each in client.ask("variables", variablesReference=scope["variablesReference"])["variables"]}
        for scope in client.ask("scopes", frameId=frame)["scopes"]
    }
    due = {"N1": "100 = 0000000000000144", "Q1": "0/1/6", "V": "0", "TR": "0"}
    yield "the registers", None if values["Registers"] == due else f"{values['Registers']}"
    yield "the stores", None if values["Stores"]["V2P0"] == "20 = 0000000000000024" and values["Stores"]["Y0"] == "0 = 0000000000000000" else f"{values['Stores']}"
    yield "the machine", None if values["Machine"] == {"calls": "16 of 19", "orders": "16", "state": "LIVE", "priorities": "0"} else f"{values['Machine']}"
    for name, value in [("V1", "10 = 0000000000000012"), ("V1P0", "10 = 0000000000000012"), ("E2", "10 = 0000000000000012"), ("Q1", "0/1/6"), ("M1", "6"), ("Q9", "0/0/0"), ("N1", "100 = 0000000000000144")]:
        found = client.ask("evaluate", expression=name, frameId=frame)
        yield f"the value of {name}", None if found.get("result") == value else f"{found}"
    for name in ("Y1", "V9", "N2", "Q16", "E9999", "x"):
        found = client.ask("evaluate", expression=name, frameId=frame)
        yield f"{name} has no value", None if found.get("success") is False else f"{found}"
    client.end()


def words_are_watched() -> Cases:
    """A word that is watched stops the run where it changes, forward and back; what isn't a word can't be watched."""
    client = launched("walks-over-a-table")
    info = client.ask("dataBreakpointInfo", name="Y0", variablesReference=2)
    none = client.ask("dataBreakpointInfo", name="Q1", variablesReference=1)
    yield "what can be watched", None if info["dataId"] and none["dataId"] is None else f"{info} {none}"
    client.ask("setDataBreakpoints", breakpoints=[{"dataId": info["dataId"]}])
    client.ask("configurationDone")
    client.event("stopped")
    client.ask("continue", threadId=1)
    body = client.event("stopped")["body"]
    yield "where Y0 changes", None if (body["reason"], body["text"], client.place(1)) == ("data breakpoint", "Y0 was 0 and is 100", "11 ZERO at 8/3") else f"{body}"
    found = [client.go("continue"), client.go("reverseContinue"), client.go("reverseContinue")]
    yield "the way back to it", None if [reason for reason, _ in found] == ["pause", "data breakpoint", "entry"] else f"{found}"
    client.end()
    client = launched("adds-cards-while-a-tape-is-copied")
    address = client.ask("dataBreakpointInfo", name="E64")["dataId"]
    client.ask("setDataBreakpoints", breakpoints=[{"dataId": address}])
    client.ask("configurationDone")
    client.event("stopped")
    reason, place = client.go("continue")
    yield "where a transfer changes a word", None if reason == "data breakpoint" else f"{reason} {place}"
    client.end()


def programs_are_threads() -> Cases:
    """All programs are threads, a breakpoint stops its own, and the journal is told as far as the run has come."""
    job = "two-programs-share-a-punch"
    client = launched(job)
    threads = [thread["name"] for thread in client.ask("threads")["threads"]]
    yield "the threads", None if threads == ["slot 0: LIVE", "slot 1: LIVE"] else f"{threads}"
    places = client.ask("breakpointLocations", source={}, line=20)["breakpoints"]
    told = client.ask("setBreakpoints", source={}, breakpoints=[places[2]])["breakpoints"]
    client.ask("configurationDone")
    client.event("stopped")
    client.ask("continue", threadId=1)
    body = client.event("stopped")["body"]
    yield "a breakpoint of the second program", None if (body["threadId"], body["reason"]) == (2, "breakpoint") and told[0]["verified"] else f"{body} {told}"
    client.ask("setBreakpoints", source={}, breakpoints=[])
    client.go("continue")
    output = "".join(message["body"]["output"] for message in client.told if message.get("event") == "output")
    report = (ROOT / "examples" / f"{job}.report").read_text(encoding="ascii").split("\n")
    journal = report[1:next(at for at, line in enumerate(report) if line.startswith("SLOT "))]
    yield "the journal", None if [line.partition(": ")[2] for line in output.rstrip("\n").split("\n")] == journal else f"{output}"
    client.end()


def long_runs_are_searched() -> Cases:
    """A breakpoint to which a jump leads within a word is looked for some calls at a time; any other is found however late it is."""
    with in_folder() as folder:
        file = pathlib.Path(folder, "long.job")
        text = job_of_deck("Y0; PROGRAM;\n  SET 260; =C1;\n*; 1; DC1; J1C1NZ;\n*; SET 3; 2; =Y0; ZERO; OUT; J2;\nFINISH;").replace("ORDERS 10", "ORDERS 100000")
        file.write_text(text, encoding="ascii")
        for line, column, due in ((8, 4, ["breakpoint", "pause"]), (7, 12, ["breakpoint", "breakpoint"]), (8, 14, ["pause", "breakpoint"])):
            client = DebugClient()
            client.ask("launch", program=str(file))
            client.ask("setBreakpoints", source={}, breakpoints=[{"line": line, "column": column}])
            client.ask("configurationDone")
            client.event("stopped")
            found = [client.go("continue")[0] for _ in due]
            yield f"a late breakpoint at {line}:{column}", None if found == due else f"{found}"
            client.end()


def nonsense_is_survived() -> Cases:
    """What can't be launched or done is refused, with what is wrong; what is no message is passed over."""
    for arguments, says in NOT_LAUNCHED:
        client = DebugClient()
        answer = client.ask("launch", **arguments)
        yield f"launch {arguments}", None if says in answer.get("message", "") else f"{answer}"
        early = client.ask("threads")
        yield f"threads after launch {arguments}", None if early.get("success") is False else f"{early}"
        client.end()
    client = launched("adds-5-and-7")
    for command, arguments in NOT_DONE:
        answer = client.ask(command, **arguments)
        yield f"{command} {arguments}", None if answer.get("success") is False else f"{answer}"
    for data in (b"hello\r\n\r\n", b"Content-Length: 2\r\n\r\n{]", b"Content-Length: 2\r\n\r\n{}", b"Content-Length: 5\r\n\r\n[1,2]"):
        client.write(data)
        yield f"after {data}", None if client.ask("threads").get("threads") else "it is silent"
    verified = client.ask("setBreakpoints", source={}, breakpoints=[{"line": 1}, {"line": 99999}])["breakpoints"]
    yield "breakpoints outside of decks", None if not any(each["verified"] for each in verified) else f"{verified}"
    client.write(b"Content-Length: 50\r\n\r\n{")
    yield "a message that is cut off", None if client.end() == (0, b"") else "ends it otherwise"


SUITES: List = [runs_go_forward_and_back, values_are_shown, words_are_watched, programs_are_threads, long_runs_are_searched, nonsense_is_survived]
