"""Messages of the language server protocol."""
import json
from typing import Any, BinaryIO, Dict, Optional

Message = Dict[str, Any]


def read_message(stream: BinaryIO) -> Optional[Message]:
    """Returns the next message, or nothing at the end. A message that is no object is an empty one."""
    length, line = 0, stream.readline()
    while line.strip():
        name, _, value = line.partition(b":")
        length = int(value) if name.strip().lower() == b"content-length" and value.strip().isdigit() else length
        line = stream.readline()
    body = stream.read(length) if line else b""
    if not line or len(body) < length:
        return None
    try:
        message = json.loads(body)
    except ValueError:
        return {}
    return message if isinstance(message, dict) else {}


def write_message(stream: BinaryIO, message: Message) -> None:
    body = json.dumps({"jsonrpc": "2.0", **message}, separators=(",", ":")).encode("ascii")
    stream.write(b"Content-Length: %d\r\n\r\n%s" % (len(body), body))
    stream.flush()
