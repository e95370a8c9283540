"""Frames, and places as editors count them."""
import io
import random
import unittest

from voltizug.editor.wire import read_message, write_message
from voltizug.editor.texts import Text

from .kit import STORM

# Characters of one and of two units, and line ends.
LETTERS = ["a", "b", " ", "\u00e9", "\U0001d51e", "\n", "\r\n", "'", "\t"]


def reference(text: str, change: dict) -> str:
    """Makes a change on UTF-16 units, by the protocol's words."""
    start, end = (offset(text, change["range"][side]) for side in ("start", "end"))
    units = text.encode("utf-16-le")
    return (units[: 2 * start] + change["text"].encode("utf-16-le") + units[2 * end :]).decode("utf-16-le")


def offset(text: str, position: dict) -> int:
    """The unit of a position; a column beyond the line is its end."""
    at = 0
    for number, line in enumerate(text.split("\n")):
        size = len(line.encode("utf-16-le")) // 2
        if number == position["line"]:
            return at + min(position["character"], size - line.endswith("\r"))
        at += size + 1
    return at - 1


class Wire(unittest.TestCase):
    def test_frames(self):
        stream = io.BytesIO()
        write_message(stream, {"id": 1, "result": "\u00e9\U0001d51e"})
        write_message(stream, {"method": "exit"})
        stream.seek(0)
        self.assertEqual(read_message(stream), {"jsonrpc": "2.0", "id": 1, "result": "\u00e9\U0001d51e"})
        self.assertEqual(read_message(stream), {"jsonrpc": "2.0", "method": "exit"})
        self.assertIsNone(read_message(stream))

    def test_what_is_no_message(self):
        self.assertEqual(read_message(io.BytesIO(b"Content-Length: 2\r\n\r\n[]")), {})
        self.assertEqual(read_message(io.BytesIO(b"Content-Length: 2\r\n\r\n{x")), {})
        self.assertIsNone(read_message(io.BytesIO(b"Content-Length: 20\r\n\r\n{}")))

    def test_columns(self):
        text = Text("a\u00e9\U0001d51eb\nc")
        self.assertEqual([text.position(at)["character"] for at in range(5)], [0, 1, 2, 4, 5])
        self.assertEqual([text.offset({"line": 0, "character": column}) for column in (0, 2, 4, 5, 99)], [0, 2, 3, 4, 4])
        self.assertEqual(Text(text.text, "utf-32").position(3)["character"], 3)
        self.assertEqual(text.offset({"line": 9, "character": 0}), len(text.text))

    def test_line_ends(self):
        self.assertEqual([Text(text).starts for text in ("a\nb\n", "a\r\nb", "a\rb")], [[0, 2, 4], [0, 3], [0, 2]])
        self.assertEqual(Text("a\r\nb").offset({"line": 0, "character": 7}), 1)

    def test_places_of_the_program(self):
        # (the program counts line feeds and characters)
        self.assertEqual([Text("a\rb\n\U0001d51ec").at(*place) for place in ((1, 3), (2, 2), (2, 9))], [2, 5, 6])

    def test_changes_at_random(self):
        chance = random.Random(1)
        for _ in range(6 * STORM):
            text = Text("".join(chance.choice(LETTERS) for _ in range(60)))
            for _ in range(60):
                ends = sorted(({"line": chance.randrange(12), "character": chance.randrange(16)} for _ in range(2)), key=lambda end: (end["line"], end["character"]))
                starts = [text.offset(end) for end in ends]
                # (no client cuts a character in two)
                ends = [text.position(start) for start in starts]
                new = "".join(chance.choice(LETTERS) for _ in range(chance.randrange(6)))
                change = {"range": {"start": ends[0], "end": ends[1]}, "text": new}
                if "\r" in (text.text[starts[0] - 1 : starts[0]] if starts[0] else "", text.text[starts[1] - 1 : starts[1]] if starts[1] else ""):
                    continue
                wanted = reference(text.text, change)
                text = text.changed([change])
                self.assertEqual(text.text, wanted)
                self.assertEqual(text.starts, Text(text.text).starts)
