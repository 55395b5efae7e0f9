"""What the tests of editors share: commands that start tools, a client of the language server and one of the debug adapter, and decks with their statements."""
import json
import os
import pathlib
import subprocess
import sys
import tempfile
from typing import Dict, Iterator, List, Optional, Tuple

from toolkit import ENVIRONMENT, ROOT

sys.path.insert(0, str(ROOT / "tools"))
from editing.image import Image  # noqa: E402
from editing.naming import class_of  # noqa: E402
from editing.texts import Text  # noqa: E402
from kdf9.statements import statements  # noqa: E402
from kdf9.deck import CONSTANT, DECLARATION  # noqa: E402

# How a tool is started: by ./kdf9, or by itself where the variable KDF9 names the program.
START = [sys.executable, "-S"] if "KDF9" in os.environ else [str(ROOT / "kdf9")]

# A text with all that a deck can have, and a job around it.
DECK = """Y0; YA3;
PROGRAM V1; V0 = 10; V1 = PHELLO;
  SET 5; =Y0; (a comment; ZERO)
1; J1P7C2NZ; JSP7; SHA-3; = Y A 2;
  *; Y0; J1=Z; ZERO; OUT;
P7 V0; V0 = Q1/-2/AYA1;
1; V0; =V1P0; EXIT 1;
FINISH;
"""


def tool(name: str) -> List[str]:
    """The words that start a tool."""
    return [*START, str(ROOT / "tools" / name)] if "KDF9" in os.environ else [*START, name]


def command_in(folder: str) -> str:
    """A command in a folder that does what ./kdf9 does, for an editor."""
    file = pathlib.Path(folder, "kdf9")
    start = f'exec {sys.executable} -S {ROOT}/tools/"$@"' if "KDF9" in os.environ else f'exec {ROOT}/kdf9 "$@"'
    file.write_text(f"#!/bin/sh\n{start}\n", encoding="ascii")
    file.chmod(0o755)
    return str(file)


class Client:
    """A client that speaks to a tool by messages, with what the tool tells by itself."""

    def __init__(self, name: str) -> None:
        self.process = subprocess.Popen(tool(name), stdin=subprocess.PIPE, stdout=subprocess.PIPE, stderr=subprocess.PIPE, env=ENVIRONMENT, cwd=ROOT)
        self.told: List[dict] = []
        self.number = 0

    def write(self, data: bytes) -> None:
        """Sends bytes, whatever they are."""
        self.process.stdin.write(data)
        self.process.stdin.flush()

    def send(self, message: dict) -> None:
        """Sends a message."""
        text = json.dumps(message).encode("utf-8")
        self.write(b"Content-Length: %d\r\n\r\n%s" % (len(text), text))

    def read(self) -> Optional[dict]:
        """The next message of the tool, or None at its end."""
        length = None
        for line in iter(self.process.stdout.readline, b""):
            if line == b"\r\n":
                return json.loads(self.process.stdout.read(length))
            length = int(line.split(b":")[1])
        return None

    def end(self) -> Tuple[int, bytes]:
        """The status with which the tool ends, and what it wrote on standard error."""
        self.process.stdin.close()
        err = self.process.stderr.read()
        status = self.process.wait()
        for stream in (self.process.stdout, self.process.stderr):
            stream.close()
        return status, err


class LanguageClient(Client):
    """A client of the language server."""

    def __init__(self, **capabilities: object) -> None:
        super().__init__("lsp")
        self.able = self.ask("initialize", processId=None, rootUri=None, capabilities=capabilities)
        self.tell("initialized")

    def ask(self, method: str, **params: object) -> object:
        """The answer to a request; the whole message where it is an error."""
        self.number += 1
        self.send({"jsonrpc": "2.0", "id": self.number, "method": method, "params": params})
        return self.answer(self.number)

    def answer(self, number: int) -> object:
        """The answer to the request of this number."""
        for message in iter(self.read, None):
            if message.get("id") == number and "method" not in message:
                return message.get("result") if "result" in message else message
            self.told.append(message)
        raise EOFError("the server has ended")

    def tell(self, method: str, **params: object) -> None:
        """Sends a notification."""
        self.send({"jsonrpc": "2.0", "method": method, "params": params})

    def open(self, uri: str, text: str, language: str = "usercode") -> None:
        """Opens a text."""
        self.tell("textDocument/didOpen", textDocument={"uri": uri, "languageId": language, "version": 1, "text": text})

    def at(self, method: str, uri: str, line: int, character: int, **params: object) -> object:
        """The answer to a request about a place."""
        return self.ask(f"textDocument/{method}", textDocument={"uri": uri}, position={"line": line, "character": character}, **params)

    def faults(self, uri: str) -> List[dict]:
        """The faults of a text that the server tells next."""
        while True:
            for at, message in enumerate(self.told):
                if message.get("method") == "textDocument/publishDiagnostics" and message["params"]["uri"] == uri:
                    return self.told.pop(at)["params"]["diagnostics"]
            message = self.read()
            if message is None:
                raise EOFError("the server has ended")
            self.told.append(message)

    def shut_down(self) -> Tuple[int, bytes]:
        """Ends the server as an editor does."""
        self.ask("shutdown")
        self.tell("exit")
        return self.end()


class DebugClient(Client):
    """A client of the debug adapter."""

    def __init__(self) -> None:
        super().__init__("dap")
        self.able = self.ask("initialize", adapterID="kdf9")

    def ask(self, command: str, **arguments: object) -> dict:
        """What the adapter answers: the body, or the whole message where it refuses."""
        self.number += 1
        self.send({"seq": self.number, "type": "request", "command": command, "arguments": arguments})
        for message in iter(self.read, None):
            if message["type"] == "response" and message["request_seq"] == self.number:
                return message["body"] if message["success"] else message
            self.told.append(message)
        raise EOFError("the adapter has ended")

    def event(self, *names: str) -> Optional[dict]:
        """The next event of one of these names."""
        while True:
            for at, message in enumerate(self.told):
                if message.get("event") in names:
                    return self.told.pop(at)
            message = self.read()
            if message is None:
                raise EOFError("the adapter has ended")
            self.told.append(message)

    def go(self, command: str, thread: int = 1) -> Tuple[str, str]:
        """Moves, and says why it stopped and at which statement of its program."""
        self.ask(command, threadId=thread)
        event = self.event("stopped", "terminated")
        if event["event"] == "terminated":
            return "terminated", ""
        return event["body"]["reason"], self.place(event["body"]["threadId"])

    def place(self, thread: int) -> str:
        """The statement of a program, with its line."""
        frame = self.ask("stackTrace", threadId=thread)["stackFrames"][0]
        return f"{frame['line']} {frame['name']}"


def jobs() -> Iterator[pathlib.Path]:
    """The files of the examples that are jobs alone."""
    for path in sorted((ROOT / "examples").glob("*.job")):
        if path.stat().st_size and path.with_suffix(".args").read_text(encoding="ascii") not in ("resume\n", "check\n"):
            yield path


def placed(text: Text) -> Iterator[Tuple[int, str]]:
    """Where each statement of the decks of a text begins that have no fault, with its class; a constant and a declaration have one of their own."""
    for deck in text.decks:
        if Image(text.of_deck(deck), deck.store).is_sound:
            is_opened = False
            for statement in statements(text.of_deck(deck)):
                is_opened = is_opened or statement.text.startswith("PROGRAM")
                kind = "constant" if CONSTANT.match(statement.text) else class_of(statement.text)
                yield deck.start + statement.start, kind if is_opened or not DECLARATION.match(statement.text) else "stores"


def files(folder: str) -> Dict[str, Text]:
    """The jobs of the examples, and in this folder a deck alone, as texts by their names."""
    alone = pathlib.Path(folder, "alone.usercode")
    alone.write_text(DECK, encoding="ascii")
    found = {str(path): Text(path.read_text(encoding="latin-1"), True) for path in jobs()}
    return {**found, str(alone): Text(DECK, False)}


def in_folder() -> "tempfile.TemporaryDirectory[str]":
    """A folder for files of a test."""
    return tempfile.TemporaryDirectory()
