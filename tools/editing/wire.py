"""Messages of JSON with a header that tells their length, as the language server and the debug adapter exchange them with an editor.

What is no message is passed over: a header that can't be read, a length that no message has, and a text that isn't JSON, in which the next message may have begun.
"""
import json
import queue
import re
import threading
from typing import BinaryIO, NamedTuple, Optional, Union

# No line of a header, and no message of an editor, is longer.
LONGEST_LINE, LONGEST = 1 << 12, 1 << 26

# How many bytes are read at once.
CHUNK = 1 << 16

LENGTH = re.compile(rb"content-length:\s*(\d{1,9})\s*\Z", re.IGNORECASE)
HEADER = re.compile(rb"content-length:\s*\d{1,9}\r?\n", re.IGNORECASE)


class Nonsense(NamedTuple):
    """That something came that is no message, and why it is none."""

    why: str


Message = Union[dict, Nonsense, None]


class Incoming:
    """The messages of a stream that isn't buffered. A thread of its own reads them, so that it is known whether another one is there already."""

    def __init__(self, stream: BinaryIO) -> None:
        self._stream, self._left = stream, bytearray()
        self._queue: "queue.SimpleQueue[Message]" = queue.SimpleQueue()
        threading.Thread(target=self._read_all, daemon=True).start()

    def next(self, seconds: Optional[float] = None) -> Message:
        """The next message; None at the end of the stream. Raises queue.Empty where none comes in this time."""
        return self._queue.get(timeout=seconds) if seconds != 0 else self._queue.get_nowait()

    def _read_all(self) -> None:
        """Hands over each message, and None at the end."""
        try:
            length = self._length()
            while length is not None:
                self._queue.put(self._message(length))
                length = self._length()
        except (OSError, ValueError):
            pass
        self._queue.put(None)

    def _read_more(self) -> bool:
        """Reads what there is; whether the stream goes on."""
        more = self._stream.read(CHUNK)
        self._left += more or b""
        return bool(more)

    def _line(self) -> bytes:
        """The next line, or as much of it as a header has; nothing at the end."""
        end = self._left.find(b"\n")
        while end < 0 and len(self._left) < LONGEST_LINE and self._read_more():
            end = self._left.find(b"\n")
        return self._taken(min(end + 1 or len(self._left), LONGEST_LINE))

    def _taken(self, length: int) -> bytes:
        """The next bytes."""
        found = bytes(self._left[:length])
        del self._left[:length]
        return found

    def _length(self) -> Optional[int]:
        """The length of the next message, by its header; None at the end."""
        length = None
        while True:
            line = self._line()
            if not line:
                return None
            found = LENGTH.match(line)
            length = int(found[1]) if found else length
            if not line.strip() and length is not None and length <= LONGEST:
                return length

    def _message(self, length: int) -> Message:
        """The message of this length that comes next. Where it is none, it is read on from the next header in it."""
        while len(self._left) < length and self._read_more():
            pass
        text = self._taken(length)
        try:
            message = json.loads(text.decode("utf-8"))
        except (ValueError, RecursionError):
            header = HEADER.search(text, 1)
            self._left[:0] = text[header.start():] if header else b""
            return Nonsense("this isn't JSON")
        return message if isinstance(message, dict) else Nonsense("this is no message")


class Outgoing:
    """A stream to which messages are written."""

    def __init__(self, stream: BinaryIO) -> None:
        self._stream = stream

    def send(self, message: dict) -> None:
        """Writes a message, and hands it over."""
        text = json.dumps(message, separators=(",", ":")).encode("ascii")
        self._stream.write(b"Content-Length: %d\r\n\r\n%s" % (len(text), text))
        self._stream.flush()
