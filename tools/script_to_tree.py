#!/usr/bin/env python3
"""Makes a tree file of a Python script.

    script_to_tree.py [SCRIPT] [-o FILE]

Without SCRIPT the script is read from standard input, without -o the tree file goes to standard output. A script that
a tree file cannot hold is refused: one line on standard error says why, nothing is written, and the status is 1.

docs/TREE_FILE.md has the format, docs/SCRIPTS.md says which node of Python's syntax tree becomes which kind.
"""

import argparse
import ast
import struct
import sys
from collections import namedtuple
from itertools import accumulate
from pathlib import Path

# Kinds, by the words of docs/TREE_FILE.md: what may stand in any slot, statements, parts of them, expressions.
ABSENT, LIST = 0, 1
GLOBAL, NONLOCAL, FUNCTION_DEF, CLASS_DEF, EXPR = 16, 17, 18, 19, 20
IF, FOR, WHILE, PLAIN, IMPORT, IMPORT_FROM = 21, 22, 23, 24, 25, 26
RETURN, ASSERT, DELETE, ASSIGN, AUG_ASSIGN, ANN_ASSIGN = 27, 28, 29, 30, 31, 32
WITH, TRY, RAISE, MATCH, TYPE_ALIAS = 33, 34, 35, 36, 37
ALIAS, ID, WITH_ITEM, HANDLER, PARAMS, ARG, GENERATOR = 40, 41, 42, 43, 44, 45, 46
SAME, LOAD, CALL, NAME, LAMBDA, NAMED_EXPR, COMPREHENSION = 64, 65, 66, 67, 68, 69, 70

# In the place of a name number, where a node has no name.
NO_NAME = 0xFFFFFFFF

# The limits of a tree file. There are always fewer names than nodes, so the limit of names is kept with that of nodes.
MOST_NODES = 65535
MOST_LEVELS = 200
MOST_NAME_BYTES = 255

# Two nodes of a tree file that Python's syntax tree does not have: a name that is no expression, and a parameter
# together with its default.
Id = namedtuple("Id", "name")
Arg = namedtuple("Arg", "lineno name annotation default")


class Refused(Exception):
    """Why there is no tree file of a script."""


class Records:
    """The records of one script, written in preorder.

    There is a method for each class of Python's syntax tree. It gives to `node` a kind and what stands in the slots of
    the kind, in their order: a node of Python's tree, None where it is absent, or a list of such nodes.
    """

    def __init__(self):
        self.records = []  # of each node: kind, form, filler, size, name number, row
        self.names = {}  # the number of each name, by its bytes
        self.depth = 0  # of the node around the one that is written next
        self.row = 1  # of the node of Python's tree that is visited

    def node(self, kind, *slots, name=None, form=0):
        """Writes a node and all nodes below it."""
        number = len(self.records)
        if number == MOST_NODES:
            self.refuse(f"more than {MOST_NODES} nodes")
        if self.depth == MOST_LEVELS:
            self.refuse(f"nested too deeply, the tree has more than {MOST_LEVELS} levels")
        self.records.append(None)
        name_number = NO_NAME if name is None else self.name_number(name)
        self.depth += 1
        for slot in slots:
            if slot is None:
                self.node(ABSENT)
            elif isinstance(slot, list):
                self.node(LIST, *slot)
            else:
                self.visit(slot)
        self.depth -= 1
        self.records[number] = (kind, form, 0, len(self.records) - number, name_number, self.row)

    def visit(self, node):
        """Calls the method for the node's class. A node without a row of its own takes that of the node around it."""
        method = getattr(self, "visit_" + type(node).__name__, self.no_kind)
        row_around = self.row
        self.row = getattr(node, "lineno", row_around)
        method(node)
        self.row = row_around

    def name_number(self, name):
        text = name.encode("utf-8")
        if len(text) > MOST_NAME_BYTES:
            self.refuse(f"a name of {len(text)} bytes, {name[:20]}...; at most {MOST_NAME_BYTES} are allowed")
        return self.names.setdefault(text, len(self.names))

    def refuse(self, reason):
        raise Refused(f"line {self.row}: {reason}")

    def no_kind(self, node):
        self.refuse(f"a tree file has no kind for {type(node).__name__}")

    def no_type_parameters(self, node):
        if getattr(node, "type_params", None):
            self.refuse(f"a tree file has no kind for the type parameters of {node.name}")

    def same(self, *parts):
        """An expression whose parts are read, stored or deleted as it is itself; a part that is None is left out."""
        self.node(SAME, [part for part in parts if part is not None])

    def load(self, *parts):
        """An expression whose parts are only read; a part that is None is left out."""
        self.node(LOAD, [part for part in parts if part is not None])

    # Statements

    def visit_Global(self, node):
        self.node(GLOBAL, [Id(name) for name in node.names])

    def visit_Nonlocal(self, node):
        self.node(NONLOCAL, [Id(name) for name in node.names])

    def visit_FunctionDef(self, node):
        self.no_type_parameters(node)
        self.node(FUNCTION_DEF, node.decorator_list, node.returns, node.args, node.body, name=node.name)

    visit_AsyncFunctionDef = visit_FunctionDef

    def visit_ClassDef(self, node):
        self.no_type_parameters(node)
        keywords = [keyword.value for keyword in node.keywords]
        self.node(CLASS_DEF, node.body, node.bases, keywords, node.decorator_list, name=node.name)

    def visit_Expr(self, node):
        self.node(EXPR, node.value)

    def visit_If(self, node):
        self.node(IF, node.test, node.body, node.orelse)

    def visit_For(self, node):
        self.node(FOR, node.target, node.iter, node.body, node.orelse)

    visit_AsyncFor = visit_For

    def visit_While(self, node):
        self.node(WHILE, node.test, node.body, node.orelse)

    def visit_Pass(self, node):
        self.node(PLAIN)

    visit_Break = visit_Continue = visit_Pass

    def visit_Import(self, node):
        self.node(IMPORT, node.names)

    def visit_ImportFrom(self, node):
        # `from ..m import x` has level 2 and module `m`, `from .. import x` has level 2 and no module.
        self.node(IMPORT_FROM, node.names, name="." * node.level + (node.module or ""))

    def visit_alias(self, node):
        self.node(ALIAS, Id(node.asname) if node.asname else None, name=node.name)

    def visit_Id(self, node):
        self.node(ID, name=node.name)

    def visit_Return(self, node):
        self.node(RETURN, node.value)

    def visit_Assert(self, node):
        self.node(ASSERT, node.test, node.msg)

    def visit_Delete(self, node):
        self.node(DELETE, node.targets)

    def visit_Assign(self, node):
        self.node(ASSIGN, node.targets, node.value)

    def visit_AugAssign(self, node):
        self.node(AUG_ASSIGN, node.target, node.value)

    def visit_AnnAssign(self, node):
        self.node(ANN_ASSIGN, node.target, node.annotation, node.value, form=node.simple)

    def visit_With(self, node):
        self.node(WITH, node.items, node.body)

    visit_AsyncWith = visit_With

    def visit_withitem(self, node):
        self.node(WITH_ITEM, node.context_expr, node.optional_vars)

    def visit_Try(self, node):
        self.node(TRY, node.body, node.handlers, node.orelse, node.finalbody)

    visit_TryStar = visit_Try

    def visit_ExceptHandler(self, node):
        self.node(HANDLER, node.type, node.body, name=node.name)

    def visit_Raise(self, node):
        self.node(RAISE, node.exc, node.cause)

    def visit_Match(self, node):
        self.node(MATCH)

    def visit_TypeAlias(self, node):
        self.node(TYPE_ALIAS)

    # Parameters

    def visit_arguments(self, node):
        # Python keeps one list of defaults for the positional parameters, without gaps: those of the last ones.
        first = len(node.posonlyargs)
        defaults = [None] * (first + len(node.args) - len(node.defaults)) + node.defaults
        positional_only = self.with_defaults(node.posonlyargs, defaults[:first])
        ordinary = self.with_defaults(node.args, defaults[first:])
        keyword_only = self.with_defaults(node.kwonlyargs, node.kw_defaults)
        self.node(PARAMS, positional_only, ordinary, keyword_only, node.vararg, node.kwarg)

    def with_defaults(self, args, defaults):
        return [Arg(arg.lineno, arg.arg, arg.annotation, default) for arg, default in zip(args, defaults)]

    def visit_Arg(self, node):
        self.node(ARG, node.annotation, node.default, name=node.name)

    def visit_arg(self, node):
        self.node(ARG, node.annotation, None, name=node.arg)

    # Expressions with a kind of their own

    def visit_Name(self, node):
        self.node(NAME, name=node.id)

    def visit_Call(self, node):
        self.node(CALL, node.func, node.args + [keyword.value for keyword in node.keywords])

    def visit_Lambda(self, node):
        self.node(LAMBDA, node.args, node.body)

    def visit_NamedExpr(self, node):
        self.node(NAMED_EXPR, node.target, node.value)

    def visit_ListComp(self, node):
        self.node(COMPREHENSION, node.elt, None, node.generators)

    visit_SetComp = visit_GeneratorExp = visit_ListComp

    def visit_DictComp(self, node):
        self.node(COMPREHENSION, node.key, node.value, node.generators)

    def visit_comprehension(self, node):
        self.node(GENERATOR, node.target, node.iter, node.ifs)

    # Expressions that are Same

    def visit_Constant(self, node):
        self.same()

    def visit_UnaryOp(self, node):
        self.same(node.operand)

    def visit_BinOp(self, node):
        self.same(node.left, node.right)

    def visit_BoolOp(self, node):
        self.same(*node.values)

    def visit_Compare(self, node):
        self.same(node.left, *node.comparators)

    def visit_Tuple(self, node):
        self.same(*node.elts)

    visit_List = visit_Set = visit_Tuple

    def visit_Dict(self, node):
        # `**a` among the items has no key.
        self.same(*(part for item in zip(node.keys, node.values) for part in item))

    def visit_Slice(self, node):
        self.same(node.lower, node.upper, node.step)

    def visit_Starred(self, node):
        self.same(node.value)

    visit_Await = visit_Yield = visit_YieldFrom = visit_Starred

    # Expressions that are Load

    def visit_Subscript(self, node):
        self.load(node.value, node.slice)

    def visit_Attribute(self, node):
        self.load(node.value)

    def visit_IfExp(self, node):
        self.load(node.test, node.body, node.orelse)

    def visit_JoinedStr(self, node):
        self.load(*node.values)

    def visit_FormattedValue(self, node):
        self.load(node.value, node.format_spec)

    def file(self):
        """The bytes of the file: the names, their index, the records, the trailer."""
        text = b"".join(self.names)
        places = accumulate(map(len, self.names), initial=0)
        index = b"".join(struct.pack("<II", place, len(name)) for place, name in zip(places, self.names))
        records = b"".join(struct.pack("<BBHIII", *record) for record in self.records)
        places_and_counts = len(text + index), len(self.records), len(text), len(self.names)
        return text + index + records + struct.pack("<5I", *places_and_counts, len(text + index + records) + 20)


def tree_file(source):
    """The tree file of a script that is given as bytes or as text."""
    try:
        module = ast.parse(source)
    except SyntaxError as error:
        line = f"line {error.lineno}: " if error.lineno else ""
        raise Refused(f"{line}no Python: {error.msg}") from error
    except ValueError as error:
        raise Refused(f"no Python: {error}") from error
    except (RecursionError, MemoryError) as error:
        raise Refused("nested too deeply for Python's own parser") from error
    records = Records()
    records.node(LIST, *module.body)
    return records.file()


def main():
    parser = argparse.ArgumentParser(prog="script_to_tree", description="Makes a tree file of a Python script.")
    parser.add_argument("script", nargs="?", metavar="SCRIPT", help="the script; else standard input")
    parser.add_argument("-o", dest="output", metavar="FILE", help="where the tree file goes; else standard output")
    options = parser.parse_args()
    try:
        file = tree_file(Path(options.script).read_bytes() if options.script else sys.stdin.buffer.read())
        if options.output:
            Path(options.output).write_bytes(file)
        else:
            sys.stdout.buffer.write(file)
            sys.stdout.buffer.flush()
    except Refused as reason:
        parser.exit(1, f"script_to_tree: {options.script or 'standard input'}: {reason}\n")
    except OSError as error:
        parser.exit(1, f"script_to_tree: {error}\n")


if __name__ == "__main__":
    main()
