"""All faults of a text, and what helps against each. The rows of all faults are written by hand, for a program that has them and for one that
has not."""
import json
import os
import unittest
from typing import Dict, List

from voltizug.editor.texts import Text

from .kit import Editor, OverServer, has, needs_tokens

FAULTY = os.path.join(os.path.dirname(os.path.abspath(__file__)), "faulty.py")
PLAIN = os.path.join(os.path.dirname(FAULTY), "plain.py")
URI = "file:///none/x.sbl"
X = "externals (stem) define stem as "
# Three faults, and the text in which R1 is in the place of R2.
THREE = "externals ( stem )\nroutines ( R1 tail tail )\ndefine R1 as true\ndefine stem as ( R2 set tail )\n"
TWO = THREE.replace("R2", "R1")
TWICE, KIND = 'fault,9,DeclaredTwice,%d,%d,2,20,"tail is declared twice, in lines 2 and 2"', "fault,11,WrongKind,%d,%d,4,25,tail is a routine"
UNDECLARED = "fault,10,Undeclared,%d,%d,4,18,R2 is not declared"
# By text the fixes of its first fault, each with the text after it.
FIXES: Dict[str, Dict[str, str]] = {
    X + "true !": {"Remove !": X + "true "},
    "stringescapes { } " + X + "true": {"Remove  ": "stringescapes {} " + X + "true"},
    X + "( 'ab delete )": {"Insert '": X + "( 'ab' delete )"},
    X + "true /* x\n": {"Insert */": X + "true /* x */\n"},
    "stringescapes {} stringdef zo 'x' " + X + "'{zz}'": {"Replace by zo": "stringescapes {} stringdef zo 'x' " + X + "'{zo}'"},
    "stringescapes {} " + X + "'{U+D800}'": {},
    X + "hop 2147483648": {"Replace by maxint": X + "hop maxint"},
    "integers (x) " + X + "$x = size": {"Replace by len": "integers (x) " + X + "$x = len"},
    X + "get": {},
    X + "'a' 'b'": {"Remove 'b'": X + "'a' "},
    X + "( 'a'": {"Insert )": X + "( 'a') "},
    X[:-3] + "true": {"Insert as": X + "true"},
    X.replace("define", "defin") + "true": {"Replace by define": X + "true"},
    "externals (stem) routines (stem) define stem as true": {"Remove stem": "externals (stem) routines () define stem as true"},
    "integers (count) " + X + "$cout = 1": {
        "Replace by count": "integers (count) " + X + "$count = 1", "Declare it in integers": "integers (count cout) " + X + "$cout = 1",
    },
    "externals (stem)\n    define stem as non v\n": {
        "Declare it in groupings, and define it": "groupings ( v )\nexternals (stem)\n    define v ''\n    define stem as non v\n",
    },
    X + "next define stem as next": {"Remove this definition": X + "next "},
    "routines (r) " + X + "r": {"Define r": "routines (r) externals (stem) define r as true\ndefine stem as r"},
    "routines (r) " + X + "backwards r": {"Define r": "routines (r) externals (stem) backwardmode ( define r as true )\ndefine stem as backwards r"},
    "routines (r) backwardmode (define r as next) " + X + "r": {"Insert backwards": "routines (r) backwardmode (define r as next) " + X + "backwards r"},
    X + "(substring true)": {"Remove substring": X + "(true)"},
    X + "(substring among ((next) 'a'))": {"Put the commands before the among": X + "(substring (next) among ( 'a'))"},
    X + "among ('a' 'b' (next) 'a')": {"Remove 'a'": X + "among ('a' 'b' (next) )"},
    X + "among ('a' (next) 'b' 'a' stem (delete))": {},
    X + "among ()": {},
    X + "backwards (backwards next)": {"Remove backwards": X + "backwards (next)"},
    "externals (stem)": {"Define stem": "externals (stem)\ndefine stem as true\n"},
    "": {"Define stem": "externals ( stem )\ndefine stem as true\n"},
}


def rows_at(text: str, *rows: str) -> List[str]:
    places = {TWICE: text.index("tail )"), UNDECLARED: text.find("R2"), KIND: text.rindex("tail")}
    return [row % (places[row], places[row] + (2 if row == UNDECLARED else 4)) for row in rows]


@needs_tokens
class Fixes(OverServer):
    def fixed(self, editor: Editor, text: str, fault: int = 0) -> Dict[str, str]:
        """Returns by title the text after each fix of a fault."""
        place = editor.published(URI)[fault]["range"]
        found = editor.about(URI, "codeAction", range=place, context={"diagnostics": []})
        edits = {action["title"]: action["edit"]["changes"][URI] for action in found if action["kind"] == "quickfix"}
        changes = {title: [{"range": edit["range"], "text": edit["newText"]} for edit in reversed(parts)] for title, parts in edits.items()}
        return {title: Text(text).changed(parts).text for title, parts in changes.items()}

    def test_each_fault(self):
        editor = self.editor({"run": "never"})
        editor.open(URI, X + "true")
        for text, wanted in FIXES.items():
            self.assertTrue(editor.change(URI, text), text)
            self.assertEqual(self.fixed(editor, text), wanted, text)

    def test_all_faults_are_shown(self):
        """Of a program that has rows for them; each with its fixes."""
        known = {THREE: rows_at(THREE, TWICE, UNDECLARED, KIND), TWO: rows_at(TWO, TWICE, KIND)}
        os.environ["FAULTS"] = os.path.join(self.room(faults_json=json.dumps(known)), "faults.json")
        self.addCleanup(os.environ.pop, "FAULTS")
        editor = self.editor({"run": "never"}, program=FAULTY)
        found = editor.open(URI, THREE)
        places = [(one["range"]["start"]["line"], one["range"]["start"]["character"], one["range"]["end"]["character"]) for one in found]
        self.assertEqual(places, [(1, 19, 23), (3, 17, 19), (3, 24, 28)])
        self.assertEqual([(one["code"], one["message"]) for one in found][0], ("DeclaredTwice", "tail is declared twice, in lines 2 and 2"))
        self.assertEqual(self.fixed(editor, THREE, 1)["Replace by R1"], TWO)
        self.assertEqual(len(editor.change(URI, TWO)), 2)

    @unittest.skipUnless(has("faults x"), "the program has no rows `faults` yet")
    def test_the_faults_of_the_line(self):
        """Wherever the cursor is in it; those at the cursor come first, and those of other lines do not come."""
        text = "externals ( stem )\nroutines ( one two )\ndefine one as true\ndefine two as true\ndefine stem as ( onne twwo )\ndefine on as onee\n"
        editor = self.editor({"run": "never"})
        editor.open(URI, text)
        editor.published(URI)
        for line, character, wanted in ((4, 0, ["one", "two"]), (4, 28, ["one", "two"]), (4, 23, ["two", "one"]), (3, 5, []), (3, 18, [])):
            here = {"line": line, "character": character}
            found = editor.about(URI, "codeAction", range={"start": here, "end": here}, context={"diagnostics": []})
            self.assertEqual([one["title"][11:] for one in found if one["title"].startswith("Replace by ")], wanted, here)

    def test_a_program_that_says_one(self):
        editor = self.editor({"run": "never"}, program=PLAIN)
        self.assertEqual([one["code"] for one in editor.open(URI, THREE)], ["DeclaredTwice"])

    @unittest.skipUnless(has("faults x"), "the program has no rows `faults` yet")
    def test_the_program_says_all(self):
        editor = self.editor({"run": "never"})
        self.assertEqual([one["code"] for one in editor.open(URI, THREE)], ["DeclaredTwice", "Undeclared", "WrongKind"])
        self.assertEqual(self.fixed(editor, THREE, 1)["Replace by R1"], TWO)
        self.assertEqual([one["code"] for one in editor.change(URI, "")], ["NoExternal"])
