"""The language server: what an editor tells of its texts, and what it asks.

It answers in the order in which it is asked, and tells of faults when an editor pauses, or after a while where it doesn't.
"""
import queue
import time
from typing import BinaryIO, Callable, Dict, Iterator, List, Optional
from urllib.parse import unquote, urlparse

from kdf9.about import version
from kdf9.program import BadInput

from editing import features, told
from editing.faults import Fault, faults_of, fixes_of, hint_of
from editing.formatting import formatted
from editing.texts import UTF_8, UTF_16, Text, is_job, of_bytes
from editing.wire import Incoming, Message, Nonsense, Outgoing

# The numbers of errors, by the protocol.
NO_JSON, NO_REQUEST, NO_METHOD, BAD_WORDS, NOT_BEGUN, SLIP, CANCELLED, FAILED = -32700, -32600, -32601, -32602, -32002, -32603, -32800, -32803

# For how many seconds the editor pauses before faults are looked for, and for how many they aren't at most.
PAUSE, LONGEST_PAUSE = 0.03, 0.3

ERROR, INCREMENTAL = 1, 2


class Refusal(Exception):
    """That a request isn't answered: the number of the error and what is said of it."""

    def __init__(self, number: int, says: str) -> None:
        super().__init__(says)
        self.number = number


class Server:
    """A language server over two streams."""

    def __init__(self, reads: BinaryIO, writes: BinaryIO) -> None:
        self._incoming, self._outgoing = Incoming(reads), Outgoing(writes)
        self._waiting: List[Message] = []
        self._texts: Dict[str, Text] = {}
        self._changed: Dict[str, float] = {}
        self._counts, self._with_places = UTF_16, False
        self._begun = self._ended = False
        self.status: Optional[int] = None

    def serve(self) -> int:
        """Answers until the editor ends it or its stream; the status."""
        while self.status is None:
            message = self._next()
            if message is None:
                return 0
            if isinstance(message, Nonsense):
                self._outgoing.send({"jsonrpc": "2.0", "id": None, "error": {"code": NO_JSON, "message": message.why}})
            else:
                self._take(message)
        return self.status

    def _next(self) -> Message:
        """The next message. Until it comes, faults are told of the texts that have changed."""
        while True:
            if self._waiting:
                return self._waiting.pop(0)
            if not self._changed:
                return self._incoming.next()
            since = min(self._changed.values())
            if time.monotonic() - since < LONGEST_PAUSE:
                try:
                    return self._incoming.next(PAUSE)
                except queue.Empty:
                    pass
            uri = min(self._changed, key=self._changed.get)
            del self._changed[uri]
            self._tell_faults(uri)

    def _is_cancelled(self, number: object) -> bool:
        """Whether the editor has taken this request back already: what has come by now is looked through."""
        try:
            while True:
                message = self._incoming.next(0)
                self._waiting.append(message)
                if message is None:
                    break
        except queue.Empty:
            pass
        asked = ({}, *(each for each in self._waiting if isinstance(each, dict)))
        return any(each.get("method") == "$/cancelRequest" and isinstance(each.get("params"), dict) and each["params"].get("id") == number for each in asked)

    def _take(self, message: dict) -> None:
        """Takes a message: answers a request, and does what a notification says."""
        method, number, params = message.get("method"), message.get("id"), message.get("params")
        if not isinstance(method, str):
            if "result" not in message and "error" not in message:
                self._refuse(number, Refusal(NO_REQUEST, "this is no request"))
            return
        try:
            answer = self._answer(method, params if isinstance(params, dict) else {}, number)
        except Refusal as why:
            if "id" in message:
                self._refuse(number, why)
            return
        except (AttributeError, KeyError, TypeError, ValueError) as why:
            if "id" in message:
                self._refuse(number, Refusal(BAD_WORDS, f"{method} has other parameters: {type(why).__name__}: {why}"))
            return
        except BadInput as why:
            if "id" in message:
                self._refuse(number, Refusal(SLIP, str(why)))
            return
        if "id" in message:
            self._outgoing.send({"jsonrpc": "2.0", "id": number, "result": answer})

    def _refuse(self, number: object, why: Refusal) -> None:
        self._outgoing.send({"jsonrpc": "2.0", "id": number, "error": {"code": why.number, "message": str(why)}})

    def _answer(self, method: str, params: dict, number: object) -> object:
        """What is answered to a method."""
        if method == "exit":
            self.status = 0 if self._ended else 1
            return None
        if method == "initialize":
            return self._initialize(params)
        if method.startswith("$/") or method == "initialized":
            return None
        if not self._begun or self._ended:
            raise Refusal(NO_REQUEST if self._ended else NOT_BEGUN, "the server is shut down" if self._ended else "initialize comes first")
        if method == "shutdown":
            self._ended = True
            return None
        if method in NOTIFIED:
            return NOTIFIED[method](self, params)
        if method not in ASKED:
            if number is None:
                return None
            raise Refusal(NO_METHOD, f"there is no method {method}")
        if number is not None and self._is_cancelled(number):
            raise Refusal(CANCELLED, "cancelled")
        return ASKED[method](self, self._text(params), params)

    def _initialize(self, params: dict) -> dict:
        """Takes what the editor can, and says what the server can."""
        self._begun = True
        capabilities = params.get("capabilities") if isinstance(params.get("capabilities"), dict) else {}
        counts = capabilities.get("general", {}).get("positionEncodings") or []
        self._counts = UTF_8 if UTF_8 in counts else UTF_16
        self._with_places = bool(capabilities.get("textDocument", {}).get("completion", {}).get("completionItem", {}).get("snippetSupport"))
        return {
            "serverInfo": {"name": "kdf9", "version": version()},
            "capabilities": {
                "positionEncoding": self._counts, "textDocumentSync": {"openClose": True, "change": INCREMENTAL}, "hoverProvider": True, "definitionProvider": True,
                "referencesProvider": True, "documentHighlightProvider": True, "documentSymbolProvider": True, "documentFormattingProvider": True,
                "documentRangeFormattingProvider": True, "renameProvider": {"prepareProvider": True}, "completionProvider": {"triggerCharacters": ["="]},
                "codeActionProvider": {"codeActionKinds": ["quickfix"]},
                "semanticTokensProvider": {"legend": {"tokenTypes": features.TOKENS, "tokenModifiers": []}, "full": True, "range": True},
            },
        }

    def _text(self, params: dict) -> Text:
        """The text that a request names."""
        uri = params["textDocument"]["uri"]
        if uri not in self._texts:
            raise Refusal(BAD_WORDS, f"{uri} isn't open")
        return self._texts[uri]

    def open(self, params: dict) -> None:
        """Takes a text that the editor has opened."""
        document = params["textDocument"]
        uri, text = document["uri"], of_bytes(str(document["text"]))
        is_one = is_job(text, str(document.get("languageId")), unquote(urlparse(uri).path))
        self._texts[uri] = Text(text, is_one, self._counts)
        self._changed.setdefault(uri, time.monotonic())

    def change(self, params: dict) -> None:
        """Takes changes of a text."""
        uri = params["textDocument"]["uri"]
        self._texts[uri] = self._text(params).changed(params["contentChanges"])
        self._changed.setdefault(uri, time.monotonic())

    def close(self, params: dict) -> None:
        """Forgets a text that the editor has closed, and its faults."""
        uri = params["textDocument"]["uri"]
        self._changed.pop(uri, None)
        if self._texts.pop(uri, None):
            self._notify(uri, [])

    def _tell_faults(self, uri: str) -> None:
        """Tells the editor of the faults of a text."""
        text = self._texts.get(uri)
        if text is None:
            return
        try:
            found = [self._diagnostic(text, fault) for fault in faults_of(text)]
        except BadInput as why:
            found = [{"range": text.span(0, 0), "severity": ERROR, "source": "kdf9", "message": str(why)}]
        self._notify(uri, found)

    def _notify(self, uri: str, found: list) -> None:
        self._outgoing.send({"jsonrpc": "2.0", "method": "textDocument/publishDiagnostics", "params": {"uri": uri, "diagnostics": found}})

    def _diagnostic(self, text: Text, fault: Fault) -> dict:
        """A fault as the editor shows it."""
        hint = hint_of(text, fault)
        return {
            "range": text.span(fault.start, fault.end), "severity": ERROR, "source": "kdf9", "code": fault.name,
            "message": fault.sentence + (f"\nhint: {hint}" if hint else ""),
        }

    def hover(self, text: Text, params: dict) -> Optional[dict]:
        """What is said of a place."""
        return told.hover(text, text.offset(params["position"]))

    def definition(self, text: Text, params: dict) -> Optional[dict]:
        """Where a name is defined."""
        found = features.definition(text, text.offset(params["position"]))
        return found and {"uri": params["textDocument"]["uri"], "range": found}

    def references(self, text: Text, params: dict) -> List[dict]:
        """Where a name is used."""
        also = params.get("context", {}).get("includeDeclaration", True)
        return [{"uri": params["textDocument"]["uri"], "range": each} for each in features.references(text, text.offset(params["position"]), also)]

    def highlights(self, text: Text, params: dict) -> List[dict]:
        """Where a name is used, for the eye."""
        return [{"range": each} for each in features.references(text, text.offset(params["position"]))]

    def prepare(self, text: Text, params: dict) -> Optional[dict]:
        """What would be renamed."""
        return features.range_to_rename(text, text.offset(params["position"]))

    def rename(self, text: Text, params: dict) -> dict:
        """The edits that rename a name."""
        try:
            edits = features.renamed(text, text.offset(params["position"]), str(params["newName"]))
        except features.NotRenamed as why:
            raise Refusal(FAILED, str(why)) from why
        return {"changes": {params["textDocument"]["uri"]: edits}}

    def outline(self, text: Text, _params: dict) -> List[dict]:
        """The outline of a text."""
        return features.outline(text)

    def complete(self, text: Text, params: dict) -> dict:
        """What may be written at a place."""
        return {"isIncomplete": False, "items": features.completions(text, text.offset(params["position"]), self._with_places)}

    def format(self, text: Text, params: dict) -> List[dict]:
        """The edits that give the decks of a text even form, in a range of lines if there is one."""
        span = params.get("range")
        return list(edits_of_format(text, *([span["start"]["line"], span["end"]["line"]] if span else [0, len(text.starts)])))

    def tokens(self, text: Text, params: dict) -> dict:
        """The tokens of a text, or of a range of it."""
        span = params.get("range")
        start, end = (text.offset(span["start"]), text.offset(span["end"])) if span else (0, len(text.text))
        return {"data": features.tokens(text, start, end)}

    def actions(self, text: Text, params: dict) -> List[dict]:
        """What mends the faults in a range."""
        start, end = text.offset(params["range"]["start"]), text.offset(params["range"]["end"])
        lines = range(text.line_of(start), text.line_of(end) + 1)
        return [action for fault in faults_of(text) if text.line_of(fault.start) in lines for action in self._actions_of(text, fault, params["textDocument"]["uri"])]

    def _actions_of(self, text: Text, fault: Fault, uri: str) -> Iterator[dict]:
        fixes = fixes_of(text, fault)
        for fix in fixes:
            edits = [{"range": text.span(start, end), "newText": new} for start, end, new in fix.edits]
            yield {
                "title": fix.title, "kind": "quickfix", "diagnostics": [self._diagnostic(text, fault)], "isPreferred": fix == fixes[0],
                "edit": {"changes": {uri: edits}},
            }


def edits_of_format(text: Text, first: int, last: int) -> Iterator[dict]:
    """The edits that give the lines of decks from `first` to `last` even form."""
    for deck in text.decks:
        old, new = text.of_deck(deck).split("\n"), formatted(text.of_deck(deck)).split("\n")
        for at, (before, after) in enumerate(zip(old, new)):
            line = deck.line + at
            if before != after and first <= line <= last:
                yield {"range": text.span(text.starts[line], text.starts[line] + len(before)), "newText": after}


Asked = Callable[[Server, Text, dict], object]
Notified = Callable[[Server, dict], object]

ASKED: Dict[str, Asked] = {
    "textDocument/hover": Server.hover, "textDocument/definition": Server.definition, "textDocument/references": Server.references,
    "textDocument/documentHighlight": Server.highlights, "textDocument/documentSymbol": Server.outline, "textDocument/completion": Server.complete,
    "textDocument/formatting": Server.format, "textDocument/rangeFormatting": Server.format, "textDocument/prepareRename": Server.prepare,
    "textDocument/rename": Server.rename, "textDocument/codeAction": Server.actions, "textDocument/semanticTokens/full": Server.tokens,
    "textDocument/semanticTokens/range": Server.tokens,
}
NOTIFIED: Dict[str, Notified] = {
    "textDocument/didOpen": Server.open, "textDocument/didChange": Server.change, "textDocument/didClose": Server.close,
    "textDocument/didSave": lambda _server, _params: None, "workspace/didChangeConfiguration": lambda _server, _params: None,
}
