"""What only a teacher's word opens. An exercise file has the SHA-256 of the word, and the page doesn't: that is the key, so the page can be read by all."""
import base64
import hashlib
import json

# How many bytes of the beginning are the check, by which the page knows the right word, and how many one hash covers.
CHECK, BLOCK = 16, 32


def sealed(value: object, key: str) -> str:
    """A value as JSON that can be read only with the key, which is 64 hexadecimal digits."""
    data = json.dumps(value, separators=(",", ":")).encode("utf-8")
    return base64.b64encode(hidden(hashlib.sha256(data).digest()[:CHECK] + data, key)).decode("ascii")


def hidden(data: bytes, key: str) -> bytes:
    """Bytes, each changed by those of a stream that depends on the key."""
    stream = b"".join(hashlib.sha256(f"{key} {number}".encode("ascii")).digest() for number in range(-(-len(data) // BLOCK)))
    return bytes(one ^ other for one, other in zip(data, stream))
