"""The debug adapter: what an editor asks of a run of a job. Programs are threads, and time is the number of calls that were made."""
from typing import BinaryIO, Callable, Dict, List, Optional

from debugging.history import History, Place
from debugging.stops import MOST_SEARCHED, Hit, Stops, Watched
from debugging.values import SHOWN, STORES, View
from editing.wire import Incoming, Nonsense, Outgoing
from kdf9.program import BadInput, read_text
from kdf9.records import line_of_entry
from kdf9.timeline import calls_in

NOTE_OF_SEARCH = f"a jump may lead here, and it doesn't begin a word: it is looked for {MOST_SEARCHED} calls at a time"

# How many lines of the journal are written at once.
MOST_LINES = 500

SCOPES, SLOTS = list(SHOWN), 4


class NotDone(Exception):
    """Why a request isn't done."""


class Adapter:
    """A debug adapter over two streams."""

    def __init__(self, reads: BinaryIO, writes: BinaryIO) -> None:
        self._incoming, self._outgoing = Incoming(reads), Outgoing(writes)
        self._sequence = 0
        self._history: Optional[History] = None
        self._stops: Optional[Stops] = None
        self._source, self._stops_on_entry = "", True
        self._calls, self._told, self._slot, self._is_over = 0, -1, 0, False
        self._after: List[Callable[[], None]] = []
        self._first_line = self._first_column = 1

    def serve(self) -> int:
        """Answers until the editor ends it or its stream; the status."""
        message = self._incoming.next()
        while message is not None:
            if not isinstance(message, Nonsense) and message.get("type") == "request":
                self._take(message)
                if message.get("command") in ("disconnect", "terminate"):
                    break
            message = self._incoming.next()
        return 0

    def _send(self, kind: str, **parts: object) -> None:
        self._sequence += 1
        self._outgoing.send({"seq": self._sequence, "type": kind, **parts})

    def _event(self, event: str, **body: object) -> None:
        self._send("event", event=event, body=body)

    def _take(self, message: dict) -> None:
        """Answers a request, and then does what comes after its answer."""
        command, arguments = message.get("command"), message.get("arguments")
        head = {"request_seq": message.get("seq", 0), "command": command}
        self._after = []
        try:
            if command not in ASKED:
                raise NotDone(f"there is no request {command}")
            if self._history is None and command not in BEFORE_LAUNCH:
                raise NotDone("no job is launched")
            body = ASKED[command](self, arguments if isinstance(arguments, dict) else {})
        except (NotDone, BadInput) as why:
            self._refuse(head, str(why))
            return
        except (AttributeError, KeyError, IndexError, TypeError, ValueError) as why:
            self._refuse(head, f"{command} has other arguments: {type(why).__name__}: {why}")
            return
        self._send("response", success=True, body=body or {}, **head)
        for follow in self._after:
            follow()

    def _refuse(self, head: dict, why: str) -> None:
        self._send("response", success=False, message=why, body={"error": {"id": 1, "format": why.replace("{", "(").replace("}", ")"), "showUser": True}}, **head)

    def initialize(self, arguments: dict) -> dict:
        """Says what the adapter can."""
        self._first_line = int(arguments.get("linesStartAt1", True))
        self._first_column = int(arguments.get("columnsStartAt1", True))
        return {
            "supportsConfigurationDoneRequest": True, "supportsStepBack": True, "supportsDataBreakpoints": True, "supportsEvaluateForHovers": True,
            "supportsBreakpointLocationsRequest": True, "supportsRestartRequest": True, "supportsTerminateRequest": True,
            "exceptionBreakpointFilters": [{"filter": "fail", "label": "A program fails", "default": True}],
        }

    def launch(self, arguments: dict) -> None:
        """Runs the job of a file, to look at its run from the beginning."""
        program = arguments.get("program")
        if not isinstance(program, str) or program in ("", "-"):
            raise NotDone("launch needs program, the file of a job")
        self._history, self._source = History(program, read_text(program)), program
        self._stops = Stops(self._history)
        self._stops_on_entry = arguments.get("stopOnEntry", True) is not False
        self._calls, self._told, self._slot, self._is_over = 0, -1, min(self._history.programs), False
        self._after.append(lambda: self._event("initialized"))

    def configured(self, _arguments: dict) -> None:
        """Begins the run."""
        if self._stops_on_entry:
            self._after.append(lambda: self._stop(Hit(0, self._slot, "entry")))
        else:
            self._after.append(self._forward)

    def restart(self, _arguments: dict) -> None:
        """Goes back to the beginning."""
        self._after.append(lambda: self._stop(Hit(0, self._slot, "entry")))

    def end(self, _arguments: dict) -> None:
        """Ends the run for the editor."""
        self._after.append(lambda: self._event("terminated"))

    def threads(self, _arguments: dict) -> dict:
        """The programs."""
        sections = self._view().sections
        return {"threads": [{"id": number + 1, "name": f"slot {number}: {' '.join(sections[number].state)}"} for number in self._history.programs]}

    def set_breakpoints(self, arguments: dict) -> dict:
        """Takes the breakpoints of the job."""
        self._stops.breakpoints, told = [], []
        for asked in arguments.get("breakpoints") or []:
            line, column = asked["line"] + 1 - self._first_line, asked.get("column")
            found = self._order_at(line, None if column is None else column + 1 - self._first_column)
            if found is None:
                told.append({"verified": False, "line": asked["line"], "message": "no order of a deck is here or below"})
            else:
                self._stops.breakpoints.append(found)
                note = {"message": NOTE_OF_SEARCH} if self._stops.is_unknown(found) else {}
                told.append({"verified": True, **self._shown_place(found), "source": self._shown_source(), **note})
        return {"breakpoints": told}

    def _order_at(self, line: int, column: Optional[int]) -> Optional[Place]:
        """The order on a line, at or after a column; or the first on the next line of its deck that has one."""
        for program in self._history.programs.values():
            deck_line = program.slot.deck_line
            if deck_line <= line < deck_line + program.slot.deck.count("\n"):
                return next((order for order in program.orders if (order.line, order.column) >= (line, column or 0)), None)
        return None

    def locations(self, arguments: dict) -> dict:
        """Where breakpoints can be between two lines: at each order."""
        first = arguments["line"] + 1 - self._first_line
        last = arguments.get("endLine", arguments["line"]) + 1 - self._first_line
        orders = [order for program in self._history.programs.values() for order in program.orders if first <= order.line <= last]
        return {"breakpoints": [self._shown_place(order) for order in orders]}

    def set_failures(self, arguments: dict) -> None:
        """Takes whether the run stops where a program fails."""
        self._stops.at_failures = "fail" in arguments.get("filters", [])

    def watchable(self, arguments: dict) -> dict:
        """Whether a value can be watched: the words of the store can."""
        reference, name = arguments.get("variablesReference"), str(arguments["name"])
        slot = self._slot if not reference else (reference - 1) // len(SCOPES)
        address = self._view().address(slot, name) if not reference or SCOPES[(reference - 1) % len(SCOPES)] == STORES else None
        if address is None:
            return {"dataId": None, "description": f"{name} is no word of the store"}
        return {"dataId": f"{slot} {address} {name}", "description": f"{name} of slot {slot}", "accessTypes": ["write"], "canPersist": True}

    def set_watched(self, arguments: dict) -> dict:
        """Takes the words that are watched."""
        self._stops.watched, told = [], []
        for asked in arguments["breakpoints"]:
            slot, address, name = asked["dataId"].split(" ", 2)
            good = int(slot) in self._history.programs and 0 <= int(address) < self._history.programs[int(slot)].slot.store
            if good:
                self._stops.watched.append(Watched(int(slot), int(address), name))
            told.append({"verified": good})
        return {"breakpoints": told}

    def go_on(self, _arguments: dict) -> dict:
        """Goes on to the next place where the run stops."""
        self._after.append(self._forward)
        return {"allThreadsContinued": True}

    def go_back(self, _arguments: dict) -> None:
        """Goes back to the last place where the run stops."""
        self._after.append(lambda: self._stop(self._stops.previous(self._slot, self._calls)))

    def step_in(self, arguments: dict) -> None:
        """Goes on until the program has obeyed its next order."""
        self._step(arguments, lambda links, first: True)

    def step_over(self, arguments: dict) -> None:
        """Goes on until the program has obeyed its next order, with all of the part that this calls."""
        self._step(arguments, lambda links, first: links <= first)

    def step_out(self, arguments: dict) -> None:
        """Goes on until the program has returned from its part."""
        self._step(arguments, lambda links, first: links < first)

    def step_back(self, arguments: dict) -> None:
        """Goes back to before the program's last order."""
        hit = self._stops.back(self._thread(arguments), self._calls)
        self._after.append(lambda: self._stop(hit))

    def pause(self, arguments: dict) -> None:
        """Stops where the run is."""
        hit = Hit(self._calls, self._thread(arguments), "pause")
        self._after.append(lambda: self._stop(hit))

    def _thread(self, arguments: dict) -> int:
        """The slot of the program that a request names."""
        if arguments["threadId"] - 1 not in self._history.programs:
            raise NotDone(f"there is no thread {arguments['threadId']}")
        return arguments["threadId"] - 1

    def _step(self, arguments: dict, is_there: Callable[[int, int], bool]) -> None:
        """Goes on by orders of a program until the number of its links and the first number say that it is there."""
        slot = self._thread(arguments)
        self._after.append(lambda: self._stop(self._stops.step(slot, self._calls, is_there)))

    def _forward(self) -> None:
        """Goes on."""
        if self._is_over:
            self._event("terminated")
            self._event("exited", exitCode=0)
            return
        self._stop(self._stops.next(self._slot, self._calls))

    def _stop(self, hit: Hit) -> None:
        """Stops here, and says what the journal has since the last stop."""
        self._tell_journal(hit.calls)
        self._calls, self._slot, self._is_over = hit.calls, hit.slot, hit.is_end
        says = {"description": hit.says, "text": hit.says} if hit.says else {}
        self._event("stopped", reason=hit.reason, threadId=hit.slot + 1, allThreadsStopped=True, **says)

    def _tell_journal(self, calls: int) -> None:
        """Writes the entries of the journal up to a call, if it lies ahead."""
        lines = [f"call {entry['call']}: {line_of_entry(entry)}" for entry in self._history.entries if self._told < entry["call"] + calls_in(entry) <= calls]
        more = [f"and {len(lines) - MOST_LINES} more"] if len(lines) > MOST_LINES else []
        if lines:
            self._event("output", category="console", output="\n".join([*lines[:MOST_LINES], *more, ""]))
        self._told = calls

    def _view(self) -> View:
        return View(self._history, self._calls)

    def _shown_place(self, place: Place) -> dict:
        return {"line": place.line - 1 + self._first_line, "column": place.column - 1 + self._first_column}

    def _shown_source(self) -> dict:
        return {"name": self._source.rsplit("/", maxsplit=1)[-1], "path": self._source}

    def stack(self, arguments: dict) -> dict:
        """The next order of a program, and the orders that called its part."""
        slot = self._thread(arguments)
        frames = [
            {"id": SLOTS * depth + slot + 1, "name": said, "source": self._shown_source(), **self._shown_place(place)}
            for depth, (place, said) in enumerate(self._view().calling(slot))
        ]
        first, levels = arguments.get("startFrame", 0), arguments.get("levels") or len(frames)
        return {"stackFrames": frames[first:first + levels], "totalFrames": len(frames)}

    def scopes(self, arguments: dict) -> dict:
        """The kinds of values that a program has."""
        slot = (arguments["frameId"] - 1) % SLOTS
        return {"scopes": [{"name": name, "variablesReference": len(SCOPES) * slot + at + 1, "expensive": name == STORES} for at, name in enumerate(SCOPES)]}

    def variables(self, arguments: dict) -> dict:
        """The values of a kind."""
        slot, at = divmod(arguments["variablesReference"] - 1, len(SCOPES))
        found = list(SHOWN[SCOPES[at]](self._view(), slot))
        first, number = arguments.get("start") or 0, arguments.get("count") or len(found)
        return {"variables": [{"name": name, "value": value, "variablesReference": 0, "evaluateName": name} for name, value in found[first:first + number]]}

    def evaluate(self, arguments: dict) -> dict:
        """The value of a name: a word of the store, a register, or a part of a Q-store."""
        name, slot = str(arguments["expression"]).strip(), (arguments.get("frameId", self._slot + 1) - 1) % SLOTS
        value = self._view().value(slot, name)
        if value is not None:
            return {"result": value, "variablesReference": 0}
        raise NotDone(f"slot {slot} has no {name} here")


ASKED: Dict[str, Callable[[Adapter, dict], Optional[dict]]] = {
    "initialize": Adapter.initialize, "launch": Adapter.launch, "configurationDone": Adapter.configured, "restart": Adapter.restart, "disconnect": Adapter.end,
    "terminate": Adapter.end, "threads": Adapter.threads, "setBreakpoints": Adapter.set_breakpoints, "breakpointLocations": Adapter.locations,
    "setExceptionBreakpoints": Adapter.set_failures, "dataBreakpointInfo": Adapter.watchable, "setDataBreakpoints": Adapter.set_watched, "continue": Adapter.go_on,
    "reverseContinue": Adapter.go_back, "stepIn": Adapter.step_in, "next": Adapter.step_over, "stepOut": Adapter.step_out, "stepBack": Adapter.step_back,
    "pause": Adapter.pause, "stackTrace": Adapter.stack, "scopes": Adapter.scopes, "variables": Adapter.variables, "evaluate": Adapter.evaluate,
}
BEFORE_LAUNCH = ("initialize", "launch", "disconnect", "terminate")
