"""The one table of words of the language. docs/LANGUAGE.md has the same: a test compares them. All else about a script is asked of the program."""
# By the word of a declaration the kind of its names.
DECLARATIONS = {
    "externals": "external", "routines": "routine", "groupings": "grouping", "integers": "integer", "booleans": "boolean", "strings": "string",
}
# The words with which an item begins: none of them can be inside another item.
ITEMS = (*DECLARATIONS, "backwardmode", "stringescapes", "stringdef", "define")
CONTROL = "among and atleast backwards do fail for gopast goto loop non not or repeat setlimit substring test try".split()
COMMANDS = "atlimit atmark attach delete hop insert next set setmark tolimit tomark unset".split()
VALUES = "cursor false len lenof limit maxint minint true".split()
OTHERS = "as decimal hex".split()
# Words of Snowball that no script of this program may have.
LEFT_OUT = "get reverse size sizeof".split()
RESERVED = frozenset((*ITEMS, *CONTROL, *COMMANDS, *VALUES, *OTHERS, *LEFT_OUT))
