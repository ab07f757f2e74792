"""Tests of script_to_tree: run this file with Python.

What the tool makes is compared with stored files, with files given here in hexadecimal digits, and with trees written
as nested tuples. The program treelist, where it is built, has to accept and list what the tool makes.
"""

import ast
import re
import struct
import subprocess
import sys
import tempfile
import unittest
from pathlib import Path

TOOLS = Path(__file__).resolve().parent
sys.path.insert(0, str(TOOLS))

from script_to_tree import Records, Refused, tree_file

ROOT = TOOLS.parent
EXAMPLES = ROOT / "examples"
TREELIST = ROOT / "crates" / "treelist" / "out" / "treelist"

# The words of the kinds, from the table of the document: `| 16 | Global | ...`.
FORMAT = (ROOT / "docs" / "TREE_FILE.md").read_text("utf-8")
WORDS = {int(number): word for number, word in re.findall(r"^\| (\d+) \| ([A-Z]\w+) \|", FORMAT, re.MULTILINE)}


def records(file):
    """The records of a tree file: word, form, size, name or None, row."""
    place, count, index_place, name_count, length = struct.unpack("<5I", file[-20:])
    assert length == len(file)
    index = [struct.unpack_from("<II", file, index_place + 8 * number) for number in range(name_count)]
    names = [file[at : at + size].decode() for at, size in index]
    assert len(set(names)) == len(names), "a name stands twice"
    nodes = [struct.unpack_from("<BBHIII", file, place + 16 * number) for number in range(count)]
    return [
        (WORDS[kind], form, size, None if name == 0xFFFFFFFF else names[name], row)
        for kind, form, _, size, name, row in nodes
    ]


def read(file):
    """A tree file as nested tuples.

    A node is ("Word name", child, ...), or only "Word name" without children. Absent is None, a List is a list, and an
    AnnAssign of form 1 has a `!` behind its word.
    """
    nodes = records(file)

    def subtree(number):
        word, form, size, name, _ = nodes[number]
        children = []
        child = number + 1
        while child < number + size:
            children.append(subtree(child))
            child += nodes[child][2]
        assert child == number + size, "children do not tile their node"
        if word == "Absent":
            return None
        if word == "List":
            return children
        label = word + "!" * form + (f" {name}" if name else "")
        return (label, *children) if children else label

    return subtree(0)


def listing(file):
    """The lines that treelist prints."""
    lines = []
    ends = []
    for number, (word, _, size, name, row) in enumerate(records(file)):
        while ends and ends[-1] == number:
            ends.pop()
        ends.append(number + size)
        text = "-" if name is None else "".join(printed(byte) for byte in name.encode())
        lines.append(f"{number} {len(ends)} {word} {text} {row}\n")
    return "".join(lines)


def printed(byte):
    return chr(byte) if 0x21 <= byte <= 0x7E and byte != 0x5C else f"\\{byte:02x}"


def treelist(file):
    """What the program prints, which has the whole check in it."""
    return subprocess.run([TREELIST], input=file, stdout=subprocess.PIPE, check=True).stdout.decode()


def accepted(script):
    """The file of a script, which treelist accepts if it is there."""
    file = tree_file(script)
    if TREELIST.exists():
        assert treelist(file) == listing(file), "treelist prints something else"
    return file


def statement(script):
    """The tree of a script's one statement."""
    (tree,) = read(accepted(script))
    return tree


def expression(script):
    """The tree of a script that is one expression."""
    word, tree = statement(script)
    assert word == "Expr"
    return tree


def same(*names):
    return ("Same", [f"Name {name}" for name in names])


def load(*names):
    return ("Load", [f"Name {name}" for name in names])


CONSTANT = ("Same", [])
NO_PARAMS = ("Params", [], [], [], None, None)

# Scripts and the bytes of their files: the names, the index, three records a line, the trailer. The bytes were made by
# another program, from the description of the format.
FILES = [
    (
        "",
        """
        01000000 01000000 ffffffff 01000000
        00000000 01000000 00000000 00000000 24000000
        """,
    ),
    (
        "nonlocal x",
        """
        78
        00000000 01000000
        01000000 04000000 ffffffff 01000000  11000000 03000000 ffffffff 01000000  01000000 02000000 ffffffff 01000000
        29000000 01000000 00000000 01000000
        09000000 04000000 01000000 01000000 5d000000
        """,
    ),
    (
        "from m import *",
        """
        6d 2a
        00000000 01000000  01000000 01000000
        01000000 05000000 ffffffff 01000000  1a000000 04000000 00000000 01000000  01000000 03000000 ffffffff 01000000
        28000000 02000000 01000000 01000000  00000000 01000000 ffffffff 01000000
        12000000 05000000 02000000 02000000 76000000
        """,
    ),
    (
        "import a.b.c, d as e\nfrom m import f, g as h",
        """
        612e622e63 64 65 6d 66 67 68
        00000000 05000000  05000000 01000000  06000000 01000000  07000000 01000000  08000000 01000000  09000000 01000000
        0a000000 01000000
        01000000 0d000000 ffffffff 01000000  19000000 06000000 ffffffff 01000000  01000000 05000000 ffffffff 01000000
        28000000 02000000 00000000 01000000  00000000 01000000 ffffffff 01000000  28000000 02000000 01000000 01000000
        29000000 01000000 02000000 01000000  1a000000 06000000 03000000 02000000  01000000 05000000 ffffffff 02000000
        28000000 02000000 04000000 02000000  00000000 01000000 ffffffff 02000000  28000000 02000000 05000000 02000000
        29000000 01000000 06000000 02000000
        43000000 0d000000 0b000000 07000000 27010000
        """,
    ),
    (
        "match x:\n case 1:\n  pass",
        """
        01000000 02000000 ffffffff 01000000  24000000 01000000 ffffffff 01000000
        00000000 02000000 00000000 00000000 34000000
        """,
    ),
    (
        "class __A:\n __t = 1",
        """
        5f5f41 5f5f74
        00000000 03000000  03000000 03000000
        01000000 0b000000 ffffffff 01000000  13000000 0a000000 00000000 01000000  01000000 06000000 ffffffff 01000000
        1e000000 05000000 ffffffff 02000000  01000000 02000000 ffffffff 02000000  43000000 01000000 01000000 02000000
        40000000 02000000 ffffffff 02000000  01000000 01000000 ffffffff 02000000  01000000 01000000 ffffffff 01000000
        01000000 01000000 ffffffff 01000000  01000000 01000000 ffffffff 01000000
        16000000 0b000000 06000000 02000000 da000000
        """,
    ),
    (
        "[(i := 0) for i in a]",
        """
        69 61
        00000000 01000000  01000000 01000000
        01000000 0d000000 ffffffff 01000000  14000000 0c000000 ffffffff 01000000  46000000 0b000000 ffffffff 01000000
        45000000 04000000 ffffffff 01000000  43000000 01000000 00000000 01000000  40000000 02000000 ffffffff 01000000
        01000000 01000000 ffffffff 01000000  00000000 01000000 ffffffff 01000000  01000000 05000000 ffffffff 01000000
        2e000000 04000000 ffffffff 01000000  43000000 01000000 00000000 01000000  43000000 01000000 01000000 01000000
        01000000 01000000 ffffffff 01000000
        12000000 0d000000 02000000 02000000 f6000000
        """,
    ),
    (
        "[i for i in f((y := 1))]",
        """
        69 66 79
        00000000 01000000  01000000 01000000  02000000 01000000
        01000000 10000000 ffffffff 01000000  14000000 0f000000 ffffffff 01000000  46000000 0e000000 ffffffff 01000000
        43000000 01000000 00000000 01000000  00000000 01000000 ffffffff 01000000  01000000 0b000000 ffffffff 01000000
        2e000000 0a000000 ffffffff 01000000  43000000 01000000 00000000 01000000  42000000 07000000 ffffffff 01000000
        43000000 01000000 01000000 01000000  01000000 05000000 ffffffff 01000000  45000000 04000000 ffffffff 01000000
        43000000 01000000 02000000 01000000  40000000 02000000 ffffffff 01000000  01000000 01000000 ffffffff 01000000
        01000000 01000000 ffffffff 01000000
        1b000000 10000000 03000000 03000000 2f010000
        """,
    ),
    (
        "def f():\n x\n global x",
        """
        66 78
        00000000 01000000  01000000 01000000
        01000000 10000000 ffffffff 01000000  12000000 0f000000 00000000 01000000  01000000 01000000 ffffffff 01000000
        00000000 01000000 ffffffff 01000000  2c000000 06000000 ffffffff 01000000  01000000 01000000 ffffffff 01000000
        01000000 01000000 ffffffff 01000000  01000000 01000000 ffffffff 01000000  00000000 01000000 ffffffff 01000000
        00000000 01000000 ffffffff 01000000  01000000 06000000 ffffffff 01000000  14000000 02000000 ffffffff 02000000
        43000000 01000000 01000000 02000000  10000000 03000000 ffffffff 03000000  01000000 02000000 ffffffff 03000000
        29000000 01000000 01000000 03000000
        12000000 10000000 02000000 02000000 26010000
        """,
    ),
    (
        "def f():\n x: int\n nonlocal x",
        """
        66 78 696e74
        00000000 01000000  01000000 01000000  02000000 03000000
        01000000 12000000 ffffffff 01000000  12000000 11000000 00000000 01000000  01000000 01000000 ffffffff 01000000
        00000000 01000000 ffffffff 01000000  2c000000 06000000 ffffffff 01000000  01000000 01000000 ffffffff 01000000
        01000000 01000000 ffffffff 01000000  01000000 01000000 ffffffff 01000000  00000000 01000000 ffffffff 01000000
        00000000 01000000 ffffffff 01000000  01000000 08000000 ffffffff 01000000  20010000 04000000 ffffffff 02000000
        43000000 01000000 01000000 02000000  43000000 01000000 02000000 02000000  00000000 01000000 ffffffff 02000000
        11000000 03000000 ffffffff 03000000  01000000 02000000 ffffffff 03000000  29000000 01000000 01000000 03000000
        1d000000 12000000 05000000 03000000 51010000
        """,
    ),
    (
        "def f(a: b = e, *p: q, **k: v) -> c:\n x: d = 1",
        """
        66 63 61 62 65 70 71 6b 76 78 64
        00000000 01000000  01000000 01000000  02000000 01000000  03000000 01000000  04000000 01000000  05000000 01000000
        06000000 01000000  07000000 01000000  08000000 01000000  09000000 01000000  0a000000 01000000
        01000000 17000000 ffffffff 01000000  12000000 16000000 00000000 01000000  01000000 01000000 ffffffff 01000000
        43000000 01000000 01000000 01000000  2c000000 0d000000 ffffffff 01000000  01000000 01000000 ffffffff 01000000
        01000000 04000000 ffffffff 01000000  2d000000 03000000 02000000 01000000  43000000 01000000 03000000 01000000
        43000000 01000000 04000000 01000000  01000000 01000000 ffffffff 01000000  2d000000 03000000 05000000 01000000
        43000000 01000000 06000000 01000000  00000000 01000000 ffffffff 01000000  2d000000 03000000 07000000 01000000
        43000000 01000000 08000000 01000000  00000000 01000000 ffffffff 01000000  01000000 06000000 ffffffff 01000000
        20010000 05000000 ffffffff 02000000  43000000 01000000 09000000 02000000  43000000 01000000 0a000000 02000000
        40000000 02000000 ffffffff 02000000  01000000 01000000 ffffffff 02000000
        63000000 17000000 0b000000 0b000000 e7010000
        """,
    ),
    (
        "if any((comment := line).startswith('#') for line in lines):\n comment",
        """
        616e79 636f6d6d656e74 6c696e65 6c696e6573
        00000000 03000000  03000000 07000000  0a000000 04000000  0e000000 05000000
        01000000 19000000 ffffffff 01000000  15000000 18000000 ffffffff 01000000  42000000 13000000 ffffffff 01000000
        43000000 01000000 00000000 01000000  01000000 11000000 ffffffff 01000000  46000000 10000000 ffffffff 01000000
        42000000 09000000 ffffffff 01000000  41000000 05000000 ffffffff 01000000  01000000 04000000 ffffffff 01000000
        45000000 03000000 ffffffff 01000000  43000000 01000000 01000000 01000000  43000000 01000000 02000000 01000000
        01000000 03000000 ffffffff 01000000  40000000 02000000 ffffffff 01000000  01000000 01000000 ffffffff 01000000
        00000000 01000000 ffffffff 01000000  01000000 05000000 ffffffff 01000000  2e000000 04000000 ffffffff 01000000
        43000000 01000000 02000000 01000000  43000000 01000000 03000000 01000000  01000000 01000000 ffffffff 01000000
        01000000 03000000 ffffffff 01000000  14000000 02000000 ffffffff 02000000  43000000 01000000 01000000 02000000
        01000000 01000000 ffffffff 01000000
        33000000 19000000 13000000 04000000 d7010000
        """,
    ),
    (
        "def f():\n try:\n  with a as b:\n   del b\n except E as x:\n  pass\n else:\n  y = 1\n finally:\n  z",
        """
        66 61 62 78 45 79 7a
        00000000 01000000  01000000 01000000  02000000 01000000  03000000 01000000  04000000 01000000  05000000 01000000
        06000000 01000000
        01000000 24000000 ffffffff 01000000  12000000 23000000 00000000 01000000  01000000 01000000 ffffffff 01000000
        00000000 01000000 ffffffff 01000000  2c000000 06000000 ffffffff 01000000  01000000 01000000 ffffffff 01000000
        01000000 01000000 ffffffff 01000000  01000000 01000000 ffffffff 01000000  00000000 01000000 ffffffff 01000000
        00000000 01000000 ffffffff 01000000  01000000 1a000000 ffffffff 01000000  22000000 19000000 ffffffff 02000000
        01000000 0a000000 ffffffff 02000000  21000000 09000000 ffffffff 03000000  01000000 04000000 ffffffff 03000000
        2a000000 03000000 ffffffff 03000000  43000000 01000000 01000000 03000000  43000000 01000000 02000000 03000000
        01000000 04000000 ffffffff 03000000  1d000000 03000000 ffffffff 04000000  01000000 02000000 ffffffff 04000000
        43000000 01000000 02000000 04000000  01000000 05000000 ffffffff 02000000  2b000000 04000000 03000000 05000000
        43000000 01000000 04000000 05000000  01000000 02000000 ffffffff 05000000  18000000 01000000 ffffffff 06000000
        01000000 06000000 ffffffff 02000000  1e000000 05000000 ffffffff 08000000  01000000 02000000 ffffffff 08000000
        43000000 01000000 05000000 08000000  40000000 02000000 ffffffff 08000000  01000000 01000000 ffffffff 08000000
        01000000 03000000 ffffffff 02000000  14000000 02000000 ffffffff 0a000000  43000000 01000000 06000000 0a000000
        3f000000 24000000 07000000 07000000 93020000
        """,
    ),
]


class Files(unittest.TestCase):
    def test_known_bytes(self):
        for script, digits in FILES:
            with self.subTest(script=script):
                self.assertEqual(tree_file(script).hex(" ", 4), bytes.fromhex(digits).hex(" ", 4))

    def test_examples(self):
        scripts = sorted(EXAMPLES.glob("*.py"))
        self.assertGreaterEqual(len(scripts), 4)
        for script in scripts:
            with self.subTest(script=script.name):
                file = tree_file(script.read_bytes())
                self.assertEqual(file, script.with_suffix(".tree").read_bytes())
                self.assertEqual(listing(file), script.with_suffix(".nodes").read_text("ascii"))

    def test_worked_example(self):
        """The stored file has padding, but the same records."""
        file = tree_file("def f(t):\n    return lambda: t\n")
        self.assertEqual(records(file), records((EXAMPLES / "worked.tree").read_bytes()))

    @unittest.skipUnless(TREELIST.exists(), "treelist is not built")
    def test_check(self):
        scripts = [script for script, _ in FILES]
        scripts += [path.read_text("utf-8") for folder in (EXAMPLES, TOOLS) for path in sorted(folder.glob("*.py"))]
        scripts += ["x" + "()" * 197, "-" * 98 + "x", "pass\n" * 65534, "n" * 255, "größe = η = 1"]
        for script in scripts:
            with self.subTest(script=script[:60]):
                accepted(script)


class Statements(unittest.TestCase):
    def is_read_as(self, script, tree):
        with self.subTest(script=script):
            self.assertEqual(statement(script), tree)

    def test_simple(self):
        self.is_read_as("global a, b", ("Global", ["Id a", "Id b"]))
        self.is_read_as("nonlocal a", ("Nonlocal", ["Id a"]))
        for word in "pass", "break", "continue":
            self.is_read_as(word, "Plain")
        self.is_read_as("return", ("Return", None))
        self.is_read_as("return a", ("Return", "Name a"))
        self.is_read_as("assert a", ("Assert", "Name a", None))
        self.is_read_as("assert a, b", ("Assert", "Name a", "Name b"))
        self.is_read_as("del a, b", ("Delete", ["Name a", "Name b"]))
        self.is_read_as("raise", ("Raise", None, None))
        self.is_read_as("raise a from b", ("Raise", "Name a", "Name b"))

    def test_assignments(self):
        self.is_read_as("a = b, c = d", ("Assign", ["Name a", same("b", "c")], "Name d"))
        self.is_read_as("a += b", ("AugAssign", "Name a", "Name b"))
        self.is_read_as("a: b = c", ("AnnAssign!", "Name a", "Name b", "Name c"))
        self.is_read_as("a: b", ("AnnAssign!", "Name a", "Name b", None))
        self.is_read_as("(a): b", ("AnnAssign", "Name a", "Name b", None))
        self.is_read_as("a.c: b", ("AnnAssign", load("a"), "Name b", None))

    def test_imports(self):
        self.is_read_as("import a.b, c.d as e", ("Import", [("Alias a.b", None), ("Alias c.d", "Id e")]))
        self.is_read_as("from a.b import c as d", ("ImportFrom a.b", [("Alias c", "Id d")]))
        self.is_read_as("from a import *", ("ImportFrom a", [("Alias *", None)]))
        self.is_read_as("from . import a", ("ImportFrom .", [("Alias a", None)]))
        self.is_read_as("from ....a.b import c", ("ImportFrom ....a.b", [("Alias c", None)]))

    def test_blocks(self):
        self.is_read_as(
            "if a: pass\nelif b: c\nelse: d",
            ("If", "Name a", ["Plain"], [("If", "Name b", [("Expr", "Name c")], [("Expr", "Name d")])]),
        )
        self.is_read_as("while a: pass\nelse: b", ("While", "Name a", ["Plain"], [("Expr", "Name b")]))
        for script in "for a in b: pass\nelse: c", "async for a in b: pass\nelse: c":
            self.is_read_as(script, ("For", "Name a", "Name b", ["Plain"], [("Expr", "Name c")]))
        for script in "with a as b, c: pass", "async with a as b, c: pass":
            items = [("WithItem", "Name a", "Name b"), ("WithItem", "Name c", None)]
            self.is_read_as(script, ("With", items, ["Plain"]))
        self.is_read_as("match a:\n case b: c", "Match")

    def test_try(self):
        script = "try: a\nexcept B as b: c\nexcept D: d\nelse: e\nfinally: f"
        a, c, d, e, f = [[("Expr", f"Name {name}")] for name in "acdef"]
        tree = ("Try", a, [("Handler b", "Name B", c), ("Handler", "Name D", d)], e, f)
        self.is_read_as(script, tree)
        self.is_read_as("try: a\nexcept: c", ("Try", a, [("Handler", None, c)], [], []))
        if sys.version_info >= (3, 11):
            self.is_read_as(script.replace("except", "except*"), tree)

    def test_definitions(self):
        for script in "@d\n@e\ndef f() -> r: pass", "@d\n@e\nasync def f() -> r: pass":
            self.is_read_as(script, ("FunctionDef f", ["Name d", "Name e"], "Name r", NO_PARAMS, ["Plain"]))
        self.is_read_as(
            "@d\nclass C(A, *B, m=M, **K): pass",
            ("ClassDef C", ["Plain"], ["Name A", same("B")], ["Name M", "Name K"], ["Name d"]),
        )

    def test_parameters(self):
        self.is_read_as(
            "def f(a, b: B = 1, /, c=C, *r: R, d, e: E = F, **k: K): pass",
            (
                "FunctionDef f",
                [],
                None,
                (
                    "Params",
                    [("Arg a", None, None), ("Arg b", "Name B", CONSTANT)],
                    [("Arg c", None, "Name C")],
                    [("Arg d", None, None), ("Arg e", "Name E", "Name F")],
                    ("Arg r", "Name R", None),
                    ("Arg k", "Name K", None),
                ),
                ["Plain"],
            ),
        )


class Expressions(unittest.TestCase):
    def is_read_as(self, script, tree):
        with self.subTest(script=script):
            self.assertEqual(expression(script), tree)

    def test_same(self):
        for script in "1", "'a'", "None", "...", "()", "[]", "{}":
            self.is_read_as(script, CONSTANT)
        for script in "-a", "not a", "[a]", "{a}", "(a,)", "{**a}":
            self.is_read_as(script, same("a"))
        for script in "await a", "(yield a)", "(yield from a)":
            self.is_read_as(script, same("a"))
        self.is_read_as("(yield)", CONSTANT)
        self.is_read_as("a, *b", ("Same", ["Name a", same("b")]))
        for script in "a + b", "a @ b", "a < b", "[a, b]", "{a, b}", "{a: b}":
            self.is_read_as(script, same("a", "b"))
        for script in "a or b or c", "a < b is not c", "{a: b, **c}":
            self.is_read_as(script, same("a", "b", "c"))

    def test_load(self):
        self.is_read_as("a.b", load("a"))
        self.is_read_as("a[b]", load("a", "b"))
        self.is_read_as("a[b:c:d]", ("Load", ["Name a", same("b", "c", "d")]))
        self.is_read_as("a[:c, ::d]", ("Load", ["Name a", ("Same", [same("c"), same("d")])]))
        self.is_read_as("b if a else c", load("a", "b", "c"))

    def test_formatted_text(self):
        self.is_read_as("f'{a}'", ("Load", [load("a")]))
        self.is_read_as("f'x{a!r}y{b}'", ("Load", [CONSTANT, load("a"), CONSTANT, load("b")]))
        self.is_read_as("f'{a:5}'", ("Load", [("Load", ["Name a", ("Load", [CONSTANT])])]))
        self.is_read_as("f'{a:{b}d}'", ("Load", [("Load", ["Name a", ("Load", [load("b"), CONSTANT])])]))

    def test_call(self):
        self.is_read_as("f()", ("Call", "Name f", []))
        self.is_read_as("f(a, k=b, *c, **d)", ("Call", "Name f", ["Name a", same("c"), "Name b", "Name d"]))
        self.is_read_as("a.f(b)()", ("Call", ("Call", load("a"), ["Name b"]), []))

    def test_lambda(self):
        params = ("Params", [], [("Arg a", None, "Name b")], [], ("Arg c", None, None), None)
        self.is_read_as("lambda a=b, *c: a", ("Lambda", params, "Name a"))

    def test_named_expression(self):
        self.is_read_as("(a := b)", ("NamedExpr", "Name a", "Name b"))

    def test_comprehensions(self):
        generators = [("Generator", "Name x", "Name a", ["Name b", "Name c"]), ("Generator", "Name y", "Name x", [])]
        clauses = "for x in a if b if c for y in x"
        for script in f"[y {clauses}]", f"{{y {clauses}}}", f"(y {clauses})", f"[y async {clauses}]":
            self.is_read_as(script, ("Comprehension", "Name y", None, generators))
        self.is_read_as(f"{{x: y {clauses}}}", ("Comprehension", "Name x", "Name y", generators))


class Names(unittest.TestCase):
    def test_each_once_in_order_of_use(self):
        self.assertEqual(tree_file("b = a\na = b")[:2], b"ba")

    def test_utf_8(self):
        file = tree_file("größe")
        self.assertEqual(records(file)[2][3], "größe")
        self.assertEqual(file[:7], "größe".encode())

    def test_encoding_of_the_script(self):
        self.assertEqual(tree_file("# coding: latin-1\ngröße".encode("latin-1")), tree_file("\ngröße"))


class Rows(unittest.TestCase):
    def rows(self, script):
        return [(f"{word} {name}" if name else word, row) for word, _, _, name, row in records(accepted(script))]

    def test_own_rows(self):
        script = "\n\n@d\ndef f(\n a=(\n  b)):\n  return (\n   c)"
        self.assertEqual(
            [(label, row) for label, row in self.rows(script) if label not in ("List", "Absent", "Params")],
            [("FunctionDef f", 4), ("Name d", 3), ("Arg a", 5), ("Name b", 6), ("Return", 7), ("Name c", 8)],
        )

    def test_rows_of_the_node_around(self):
        script = "\nwith (\n a\n  as b):\n  [c\n   for c in\n    d]"
        self.assertEqual(
            self.rows(script),
            [
                ("List", 1),
                ("With", 2),
                ("List", 2),
                ("WithItem", 2),
                ("Name a", 3),
                ("Name b", 4),
                ("List", 2),
                ("Expr", 5),
                ("Comprehension", 5),
                ("Name c", 5),
                ("Absent", 5),
                ("List", 5),
                ("Generator", 5),
                ("Name c", 6),
                ("Name d", 7),
                ("List", 5),
            ],
        )

    def test_names_without_rows(self):
        self.assertEqual(self.rows("\nglobal a, \\\n b")[1:], [("Global", 2), ("List", 2), ("Id a", 2), ("Id b", 2)])
        self.assertEqual(
            self.rows("from m import (\n a\n  as b)")[1:],
            [("ImportFrom m", 1), ("List", 1), ("Alias a", 2), ("Id b", 2)],
        )


class Refusals(unittest.TestCase):
    def is_refused(self, script, reason):
        with self.subTest(script=script[:60]):
            with self.assertRaisesRegex(Refused, reason):
                tree_file(script)

    def test_no_python(self):
        self.is_refused("a\nb = (", "^line 2: no Python: ")
        self.is_refused("a\0", "no Python: .*null bytes")
        self.is_refused(b"a = '\xff'", "no Python: ")

    def test_long_name(self):
        tree_file("n" * 255)
        self.is_refused("\n" + "n" * 256, "^line 2: a name of 256 bytes, n{20}")
        self.is_refused("ö" * 128, "^line 1: a name of 256 bytes")
        self.is_refused("import " + "a." * 127 + "aa", "a name of 256 bytes")
        self.is_refused("from " + "." * 255 + "m import a", "a name of 256 bytes")

    def test_depth(self):
        for deep in "-" * 98 + "x", "x" + " + x" * 98, "x" + "()" * 197, "if x: pass\n" + "elif x: pass\n" * 98:
            tree_file(deep)
        for deep in "-" * 99 + "x", "x" + " + x" * 99, "x" + "()" * 198, "if x: pass\n" + "elif x: pass\n" * 99:
            self.is_refused(deep, "^line \\d+: nested too deeply, the tree has more than 200 levels")
        self.is_refused("-" * 100000 + "x", "nested too deeply")

    def test_nodes(self):
        self.assertEqual(len(records(tree_file("pass\n" * 65534))), 65535)
        self.is_refused("pass\n" * 65535, "^line 65535: more than 65535 nodes")

    def test_type_parameters(self):
        """Python before 3.12 cannot parse them, so they are put into the tree here."""
        for script in "def f(): pass", "async def f(): pass", "class f: pass":
            (node,) = ast.parse(script).body
            node.type_params = [ast.Name("T")]
            with self.assertRaisesRegex(Refused, "^line 1: .* type parameters of f"):
                Records().visit(node)

    def test_no_kind(self):
        with self.assertRaisesRegex(Refused, "^line 1: a tree file has no kind for Expression"):
            Records().visit(ast.parse("a", mode="eval"))


class Kinds(unittest.TestCase):
    def test_every_class_of_statements_and_expressions_has_a_method(self):
        without = {"TemplateStr", "Interpolation"}
        for base in ast.stmt, ast.expr, ast.excepthandler:
            for node in base.__subclasses__():
                self.assertEqual(hasattr(Records, f"visit_{node.__name__}"), node.__name__ not in without, node)

    def test_type_alias(self):
        """Python before 3.12 has no such class."""
        records = Records()
        records.visit(type("TypeAlias", (), {"lineno": 3})())
        self.assertEqual(WORDS[records.records[0][0]], "TypeAlias")


class CommandLine(unittest.TestCase):
    def run_tool(self, *words, source=b""):
        command = [sys.executable, TOOLS / "script_to_tree.py", *words]
        return subprocess.run(command, input=source, stdout=subprocess.PIPE, stderr=subprocess.PIPE)

    def test_standard_input_and_output(self):
        answer = self.run_tool(source=b"a = b")
        self.assertEqual((answer.returncode, answer.stdout, answer.stderr), (0, tree_file("a = b"), b""))

    def test_files(self):
        with tempfile.TemporaryDirectory() as folder:
            script, tree = Path(folder, "script.py"), Path(folder, "script.tree")
            script.write_bytes(b"a = b")
            answer = self.run_tool(script, "-o", tree)
            self.assertEqual((answer.returncode, answer.stdout, answer.stderr), (0, b"", b""))
            self.assertEqual(tree.read_bytes(), tree_file("a = b"))
            script.write_bytes(b"a =")
            answer = self.run_tool(script, "-o", tree)
            self.assertEqual((answer.returncode, answer.stdout), (1, b""))
            self.assertRegex(answer.stderr.decode(), "^script_to_tree: .*script.py: line 1: no Python: .*\n$")
            self.assertEqual(tree.read_bytes(), tree_file("a = b"))
            answer = self.run_tool(Path(folder, "nothing.py"))
            self.assertEqual((answer.returncode, answer.stdout), (1, b""))
            self.assertRegex(answer.stderr.decode(), "^script_to_tree: .*nothing.py'\n$")


if __name__ == "__main__":
    unittest.main()
