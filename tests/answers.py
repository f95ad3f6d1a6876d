#!/usr/bin/env python3
"""Works out what the program is to answer, by docs/grammar.md, docs/replies.md and docs/definitions.md, and not by its code.

    tests/answers.py < SCRIPT      prints the replies to a script over an empty root, and ends with the status of its run
    tests/answers.py cases         compares what it works out with the stdout of run_cases and of the cases of tests/built, where it can
    tests/answers.py fill < LINES  prints directives of run_cases with what they come to, to be put into its stdin and stdout
    tests/answers.py compare < OUTPUT   compares what it works out with what run_cases printed
    tests/answers.py events SEED COUNT  prints that many random lists of events of the core, as directives of run_cases
    tests/answers.py steps SEED COUNT   prints that many random lists of events with mutations and rewrites
    tests/answers.py streams SEED COUNT prints that many random merges of parts granule by granule

It knows CREATE, INSERT, SELECT, EXPLAIN and OPTIMIZE over what this and earlier runs accepted, merges by the policy of the run's words,
a disk that stops or of which some calls fail, and what a crash may leave of its names. It is slow and plain: a SELECT asks each row, and
only an EXPLAIN looks at boxes. Where an EXPLAIN passes over a granule it asks each of its rows too, and fails where one meets the
condition. Where an engine's rule leaves a choice that would show, it fails: no case may rest on the code's choice.
"""
import collections
import copy
import hashlib
import itertools
import os
import re
import subprocess
import sys

from built.make_root import files_of, little, spelled

HERE = os.path.dirname(os.path.realpath(__file__))
CASES = os.path.join(HERE, "..", "crates", "run_cases")
BUILT = os.path.join(HERE, "built", "cases")
BITS = {b"UInt8": 8, b"UInt16": 16, b"UInt32": 32, b"UInt64": 64, b"Int8": 8, b"Int16": 16, b"Int32": 32, b"Int64": 64}
MOST_LEVEL = 4294967295
FUNCTIONS = [b"any", b"anyLast", b"min", b"max", b"sum", b"groupBitAnd", b"groupBitOr", b"groupBitXor"]
PLAIN, REPLACING, SUMMING = b"MergeTree", b"ReplacingMergeTree", b"SummingMergeTree"
COLLAPSING, VERSIONED, AGGREGATING = b"CollapsingMergeTree", b"VersionedCollapsingMergeTree", b"AggregatingMergeTree"
BLANKS = b" \t\r\n"
RESERVED = {b"AND", b"OR", b"NOT", b"IN", b"FROM", b"FINAL", b"WHERE", b"INDEX"}
ESCAPES = {ord("b"): 8, ord("f"): 12, ord("r"): 13, ord("n"): 10, ord("t"): 9, ord("0"): 0, ord("a"): 7, ord("v"): 11}
PRINTED = {8: b"\\b", 12: b"\\f", 13: b"\\r", 10: b"\\n", 9: b"\\t", 0: b"\\0", 39: b"\\'", 92: b"\\\\"}
WORD = re.compile(rb"[A-Za-z_][A-Za-z0-9_]*")
NUMBER = re.compile(rb"[0-9]+(?![A-Za-z0-9_])")
SYMBOL = re.compile(rb"!=|<>|<=|>=|[(),=<>*+\-;]")
STRING = re.compile(rb"'((?:[^'\\]|''|\\[\s\S])*)'(?!')")
TAKEN = re.compile(rb"\\x([0-9A-Fa-f]{2})|\\([^xN])|\\[xN]|''")
BLANK = re.compile(rb"(?:[ \t\r\n]|--[^\n]*)*")
LINE = re.compile(rb"(?:[^\\\n]|\\[\s\S])*")
FIELD = re.compile(rb"(?:[^\\\t]|\\[\s\S])*")
MOST_BYTES = 1 << 20
MOST_ROWS = 1 << 20
sys.set_int_max_str_digits(0)


class Refused(Exception):
    """A refusal: its line, and for one of the text its place and how it stands among others at that place."""

    def __init__(self, line, place=0, rank=0):
        super().__init__(line)
        self.line, self.place, self.rank = line, place, rank


def unescaped(text, at_quotes):
    """What a text with escapes says; nothing where one is faulty. Two quotes are one in a string."""
    faulty = False

    def byte_of(match):
        nonlocal faulty
        if match[1]:
            return bytes([int(match[1], 16)])
        if match[2]:
            return bytes([ESCAPES.get(match[2][0], match[2][0])])
        if match[0] == b"''":
            return b"'" if at_quotes else match[0]
        faulty = True
        return b""

    said = TAKEN.sub(byte_of, text)
    return None if faulty else said


def escaped(text):
    """A String as it is printed."""
    return b"".join(PRINTED.get(byte, bytes([byte])) for byte in text)


def value_of(kind, number):
    """The value that a number is in a column of a type; nothing where it is out of range."""
    if kind not in BITS:
        return None
    end = 1 << BITS[kind]
    low, high = (0, end) if kind.startswith(b"U") else (-end // 2, end // 2)
    return number if low <= number < high else None


def field_value(kind, field):
    """The value of a field of data; nothing where it is none."""
    if kind == b"String":
        return unescaped(field, False)
    wanted = rb"\+?[0-9]+" if kind.startswith(b"U") else rb"[+-]?[0-9]+"
    return value_of(kind, int(field)) if re.fullmatch(wanted, field) else None


def same(left, right):
    """Whether a word is a keyword, in any case."""
    return left.upper() == right


class Reader:
    """Reads a text token by token, and stops at its first fault."""

    def __init__(self, text):
        self.text = text
        self.next()

    def next(self):
        """Goes on to the next token: its kind, its bytes or what it says, and its place."""
        self.place = BLANK.match(self.text, getattr(self, "after", 0)).end()
        for kind, pattern in (("word", WORD), ("number", NUMBER), ("string", STRING), ("symbol", SYMBOL)):
            found = pattern.match(self.text, self.place)
            if found:
                said = unescaped(found[1], True) if kind == "string" else found[0]
                if said is None:
                    break
                self.kind, self.said, self.after = kind, said, found.end()
                return
        self.kind, self.said, self.after = "fault", b"", self.place

    def fault(self):
        """The token that stands here is the first fault."""
        raise Refused(f"E01 {self.place}", self.place)

    def takes(self, *texts):
        """Takes one of some symbols or keywords, if it stands here, and says which."""
        said = self.said.upper() if self.kind == "word" else self.said
        if self.kind in ("word", "symbol") and said in texts:
            self.next()
            return said
        return None

    def wants(self, *texts):
        """Takes keywords and symbols that must stand here."""
        for text in texts:
            if not self.takes(text):
                self.fault()

    def one_of(self, words):
        """Takes one of some words, as it is written."""
        if self.kind != "word" or self.said not in words:
            self.fault()
        return self.taken()

    def taken(self):
        said = self.said
        self.next()
        return said

    def name(self):
        if self.kind != "word" or self.said.upper() in RESERVED:
            self.fault()
        if len(self.said) > 64:
            raise Refused("E12 name 64", self.place, 2)
        return self.taken()

    def names(self):
        found = [self.name()]
        while self.takes(b","):
            found.append(self.name())
        return found

    def number(self):
        if self.kind != "number":
            self.fault()
        return int(self.taken())

    def key(self):
        if not self.takes(b"("):
            return [self.name()]
        found = self.names()
        self.wants(b")")
        return found

    def literal(self):
        """A literal: its place, and the number or the bytes that it says."""
        place = self.place
        if self.kind == "string":
            return place, self.taken()
        sign = self.takes(b"+", b"-")
        number = self.number()
        return place, -number if sign == b"-" else number

    def opened(self, depth):
        """The depth with one more parenthesis or NOT open, which stands here."""
        if depth == 64:
            raise Refused("E12 depth 64", self.place, 2)
        self.next()
        return depth + 1

    def term(self, depth):
        if self.kind == "word" and same(self.said, b"NOT"):
            return "not", [self.term(self.opened(depth))]
        if self.kind == "symbol" and self.said == b"(":
            inner = self.expression(self.opened(depth))
            self.wants(b")")
            return inner
        column = self.name()
        sign = self.takes(b"=", b"!=", b"<>", b"<", b"<=", b">", b">=", b"IN")
        if not sign:
            self.fault()
        if sign != b"IN":
            return "test", column, sign, [self.literal()]
        self.wants(b"(")
        literals = [self.literal()]
        while self.takes(b","):
            literals.append(self.literal())
        self.wants(b")")
        return "test", column, b"=", literals

    def joined(self, word, part, depth):
        found = [part(depth)]
        while self.takes(word):
            found.append(part(depth))
        return found[0] if len(found) == 1 else ("and" if word == b"AND" else "or", found)

    def expression(self, depth):
        return self.joined(b"OR", lambda deep: self.joined(b"AND", self.term, deep), depth)

    def select(self, is_explained):
        columns = None if self.takes(b"*") else self.names()
        self.wants(b"FROM")
        table = self.name()
        is_final = self.kind == "word" and self.takes(b"FINAL") is not None
        condition = self.expression(0) if self.takes(b"WHERE") else ("and", [])
        self.wants(b";")
        return "explain" if is_explained else "select", table, columns, is_final, condition

    def clauses(self, create):
        while True:
            clause = self.takes(b"ORDER", b"PRIMARY", b"PARTITION", b"SETTINGS") if self.kind == "word" else None
            if clause is None:
                break
            if clause in create["clauses"]:
                raise Refused(f"E01 {create['at']}", create["at"])
            if clause == b"SETTINGS":
                self.one_of([b"index_granularity"])
                self.wants(b"=")
                create["clauses"][clause] = self.number()
            else:
                self.wants(b"KEY" if clause == b"PRIMARY" else b"BY")
                create["clauses"][clause] = [self.name()] if clause == b"PARTITION" else self.key()
            create["at"] = self.place
        if b"ORDER" not in create["clauses"]:
            self.fault()
        self.wants(b";")

    def column_type(self):
        """The type of a column, and its function, where it is a SimpleAggregateFunction."""
        types = [*BITS, b"String"]
        if self.kind != "word" or self.said != b"SimpleAggregateFunction":
            return self.one_of(types), None
        self.next()
        self.wants(b"(")
        function = self.one_of(FUNCTIONS)
        self.wants(b",")
        kind = self.one_of(types)
        self.wants(b")")
        return kind, function

    def element(self):
        """A column: its name, its type and its function; or an index: its name, its column, the most values of a set, and the granules
        of a block."""
        if self.kind != "word" or not self.takes(b"INDEX"):
            return "column", self.name(), *self.column_type()
        name, column, most = self.name(), self.name(), None
        self.wants(b"TYPE")
        if self.one_of([b"minmax", b"set"]) == b"set":
            self.wants(b"(")
            most = self.number()
            self.wants(b")")
        self.wants(b"GRANULARITY")
        return "index", name, column, most, self.number()

    def engine(self):
        """An engine, and the columns that it names."""
        engine, names = self.one_of([PLAIN, REPLACING, SUMMING, COLLAPSING, VERSIONED, AGGREGATING]), []
        if engine in (COLLAPSING, VERSIONED):
            self.wants(b"(")
            names.append(self.name())
            if engine == VERSIONED:
                self.wants(b",")
                names.append(self.name())
            self.wants(b")")
        elif self.takes(b"(") and not self.takes(b")"):
            if engine == REPLACING:
                names.append(self.name())
            elif engine == SUMMING:
                names += self.key()
            self.wants(b")")
        return engine, names

    def create(self):
        self.wants(b"TABLE")
        create = {"table": self.name(), "clauses": {}}
        self.wants(b"(")
        create["elements"] = [self.element()]
        while self.takes(b","):
            create["elements"].append(self.element())
        self.wants(b")", b"ENGINE", b"=")
        create["engine"] = self.engine()
        create["at"] = self.place
        self.clauses(create)
        return "create", create

    def insert(self):
        self.wants(b"INTO")
        table = self.name()
        if self.takes(b"FORMAT"):
            self.one_of([b"TabSeparated", b"TSV"])
        self.wants(b";")
        return "insert", table

    def string(self):
        if self.kind != "string":
            self.fault()
        return self.taken()

    def optimize(self):
        self.wants(b"TABLE")
        table, partition = self.name(), None
        if self.kind == "word" and self.takes(b"PARTITION"):
            self.wants(b"ID")
            partition = self.string()
        whole = self.kind == "word" and self.takes(b"FINAL") is not None
        self.wants(b";")
        return "optimize", table, partition, whole

    def statement(self):
        first = self.takes(b"CREATE", b"INSERT", b"SELECT", b"EXPLAIN", b"OPTIMIZE") if self.kind == "word" else None
        if first == b"CREATE":
            return self.create()
        if first == b"INSERT":
            return self.insert()
        if first == b"OPTIMIZE":
            return self.optimize()
        if first == b"EXPLAIN":
            self.wants(b"SELECT")
        elif first != b"SELECT":
            self.fault()
        return self.select(first == b"EXPLAIN")


def end_of(script, place):
    """The place of the first semicolon outside strings and comments from a place on; nothing where there is none."""
    step = re.compile(rb"(?:[^;'\-]|-(?!-)|--[^\n]*|'(?:[^'\\]|\\[\s\S])*')*")
    found = step.match(script, place).end()
    return found if script[found:found + 1] == b";" else None


def statements_of(script):
    """The statements of a script: each what it says or its refusal, with its data, which is nothing where it takes none."""
    place = 0
    while True:
        place = re.compile(rb"(?:[ \t\r\n;]|--[^\n]*)*").match(script, place).end()
        if place == len(script):
            return
        end = end_of(script, place)
        text = script[place:] if end is None else script[place:end + 1]
        size = len(text) if end is None else len(text) - 1
        start, place = place, len(script) if end is None else end + 1
        first = WORD.match(text)
        takes_data = end is not None and first is not None and same(first[0], b"INSERT")
        refusals = [Refused("E12 statement 1048576", MOST_BYTES, 1)] if size > MOST_BYTES else []
        statement = None
        try:
            statement = Reader(text).statement()
        except Refused as refusal:
            refusals.append(refusal)
        data = None
        if takes_data:
            other = re.compile(rb"[ \t\r]*").match(script, place).end()
            if script[other:other + 1] not in (b"\n", b""):
                refusals.append(Refused(f"E01 {other - start}", other - start))
            line = script.find(b"\n", other)
            data, place = lines_of(script, len(script) if line < 0 else line + 1)
        yield min(refusals, key=lambda each: (each.place, each.rank)) if refusals else statement, data


def lines_of(script, place):
    """The lines of data from a place on, whether they come to their end, and the place after them."""
    lines = []
    while True:
        end = LINE.match(script, place).end()
        line, is_whole = script[place:end], script[end:end + 1] == b"\n"
        if line == b"\\." and (is_whole or end == len(script)):
            return (lines, True), end + 1
        if not is_whole:
            return (lines, False), len(script)
        lines.append(line)
        place = end + 1


def first_double(names):
    """The first name that repeats an earlier one; nothing where none does."""
    return next((name for place, name in enumerate(names) if name in names[:place]), None)


def parts_of(create):
    """Parts of a CREATE: its columns by their names, each with its type and its function, its indexes, its engine with the columns that it
    names, its sorting key, its primary key and its partition column."""
    columns = {element[1]: element[2:] for element in create["elements"] if element[0] == "column"}
    indexes = [element[1:] for element in create["elements"] if element[0] == "index"]
    clauses = create["clauses"]
    sorting = clauses[b"ORDER"]
    return columns, indexes, *create["engine"], sorting, clauses.get(b"PRIMARY", sorting), clauses.get(b"PARTITION", [None])[0]


def summed_of(create):
    """The names of the columns that a CREATE has summed: those of its list, or all that may be, where it has none."""
    columns, _, engine, named, sorting, _, parting = parts_of(create)
    if engine != SUMMING or named:
        return named if engine == SUMMING else []
    return [name for name, (kind, _) in columns.items() if kind in BITS and name not in sorting and name != parting]


def engine_reasons(create):
    """The reasons of an engine to refuse a CREATE, in the order in which they are tried, each with the name that is told, which is nothing
    where the CREATE is right by it."""
    columns, _, engine, named, sorting, _, parting = parts_of(create)
    first = lambda names: next(iter(names), None)
    apart = lambda name: name in sorting or name == parting
    versions = named if engine == REPLACING else named[1:] if engine == VERSIONED else []
    signs = named[:1] if engine in (COLLAPSING, VERSIONED) else []
    summed = summed_of(create)
    functions = {name: function for name, (_, function) in columns.items() if function}
    yield "version_type", first(name for name in versions if not columns[name][0].startswith(b"U"))
    yield "sign_type", first(name for name in signs if columns[name][0] != b"Int8")
    yield "sign_key", first(name for name in signs if apart(name))
    yield "sum_type", first(name for name in summed if columns[name][0] not in BITS)
    yield "sum_key", first(name for name in summed if apart(name))
    yield "nothing_to_sum", b"-" if engine == SUMMING and not summed else None
    yield "aggregate_engine", first(functions) if engine != AGGREGATING else None
    yield "aggregate_key", first(name for name in functions if apart(name))
    yield "aggregate_type", first(name for name, function in functions.items() if not takes_type(function, columns[name][0]))


def takes_type(function, kind):
    """Whether a function takes values of a type."""
    if function == b"sum":
        return kind in (b"Int64", b"UInt64")
    return not function.startswith(b"groupBit") or kind.startswith(b"U")


def schema_reasons(create):
    """All reasons to refuse a CREATE, as those of its engine."""
    columns, indexes, engine, named, sorting, primary, parting = parts_of(create)
    clauses = create["clauses"]
    yield "double_column", first_double([element[1] for element in create["elements"] if element[0] == "column"])
    yield "double_index", first_double([index[0] for index in indexes])
    for key in [named if engine == SUMMING else []] + [clauses[each] for each in clauses if each in (b"ORDER", b"PRIMARY")]:
        yield "double_key", first_double(key)
    yield "not_prefix", next((name for place, name in enumerate(primary) if sorting[place:place + 1] != [name]), None)
    yield "partition_type", parting if parting is not None and not columns[parting][0].startswith(b"U") else None
    yield from engine_reasons(create)
    yield "granularity", None if 1 <= clauses.get(b"SETTINGS", 8192) <= 65536 else b"-"
    yield "granularity", next((index[0] for index in indexes if not 1 <= index[3] <= 65536), None)
    yield "set_size", next((index[0] for index in indexes if index[2] is not None and index[2] > 4294967295), None)


def schema_of(create):
    """The schema of a CREATE."""
    columns, indexes, engine, named, sorting, primary, parting = parts_of(create)
    clauses = create["clauses"]
    for name in [index[1] for index in indexes] + named + [name for each in clauses if each != b"SETTINGS" for name in clauses[each]]:
        if name not in columns:
            raise Refused(b"E04 " + name)
    for reason, name in schema_reasons(create):
        if name is not None:
            raise Refused(b"E05 " + reason.encode() + b" " + name)
    kinds = [element[0] for element in create["elements"]]
    for size in range(len(kinds) + 1):
        for kind, bound, text in (("column", 64, b"columns 64"), ("index", 8, b"indexes 8")):
            if kinds[:size].count(kind) > bound:
                raise Refused(b"E12 " + text)
    names = list(columns)
    places = lambda found: [names.index(name) for name in found]
    return {
        "columns": [(name, *column) for name, column in columns.items()],
        "names": names,
        "engine": (engine, places(summed_of(create) if engine == SUMMING else named)),
        "sorting": places(sorting),
        "primary": places(primary),
        "partition": None if parting is None else names.index(parting),
        "granularity": clauses.get(b"SETTINGS", 8192),
        "index_names": [index[0] for index in indexes],
        "indexes": [(names.index(column), most, granules) for _, column, most, granules in indexes],
    }


def order_of(schema):
    """The places of the columns by which a part's rows are sorted: those of the sorting key, and the version of an engine that has versions
    and signs, where the key lacks it."""
    engine, named = schema["engine"]
    return schema["sorting"] + [place for place in named[1:] if engine == VERSIONED and place not in schema["sorting"]]


def has_sign(schema, row):
    """Whether a row's sign, where its table has one, is 1 or -1."""
    engine, named = schema["engine"]
    return engine not in (COLLAPSING, VERSIONED) or row[named[0]] in (1, -1)


def rows_of(schema, data):
    """The rows of an INSERT's data."""
    lines, is_ended = data
    kinds = [kind for _, kind, _ in schema["columns"]]
    rows = []
    for number, line in enumerate(lines, 1):
        if number > MOST_ROWS:
            raise Refused(b"E12 rows 1048576")
        fields, place = [], -1
        while place < len(line):
            end = FIELD.match(line, place + 1).end()
            fields.append(line[place + 1:end])
            place = end
        if len(fields) != len(kinds):
            raise Refused(f"E07 {number} {len(fields)} {len(kinds)}")
        row = [field_value(kind, field) for kind, field in zip(kinds, fields)]
        for field, value in enumerate(row, 1):
            if value is None:
                raise Refused(f"E08 {number} {field}")
            if isinstance(value, bytes) and len(value) > MOST_BYTES:
                raise Refused(b"E12 value 1048576")
        if not has_sign(schema, row):
            raise Refused(f"E18 {number}")
        rows.append(row)
    if not is_ended:
        raise Refused(f"E13 {len(rows)}")
    return rows


def tests_of(condition):
    """The tests of a condition, in the order of the text."""
    if condition[0] == "test":
        return [condition]
    return [test for part in condition[1] for test in tests_of(part)]


def asked_of(schema, condition):
    """The condition with the places of its columns and the values of its literals."""
    if condition[0] != "test":
        return condition[0], [asked_of(schema, part) for part in condition[1]]
    _, column, sign, literals = condition
    place = schema["names"].index(column)
    kind, values = schema["columns"][place][1], []
    for at, said in literals:
        value = value_of(kind, said) if isinstance(said, int) else said if kind == b"String" else None
        if value is None:
            raise Refused(b"E06 " + column + b" " + str(at).encode())
        values.append(value)
    return "test", place, sign, values


COMPARED = {
    b"=": lambda value, literal: value == literal,
    b"!=": lambda value, literal: value != literal,
    b"<>": lambda value, literal: value != literal,
    b"<": lambda value, literal: value < literal,
    b"<=": lambda value, literal: value <= literal,
    b">": lambda value, literal: value > literal,
    b">=": lambda value, literal: value >= literal,
}
OTHER = {b"=": b"!=", b"!=": b"=", b"<>": b"=", b"<": b">=", b"<=": b">", b">": b"<=", b">=": b"<"}


def meets(condition, row):
    """Whether a row meets a condition."""
    if condition[0] == "test":
        return any(COMPARED[condition[2]](row[condition[1]], literal) for literal in condition[3])
    truths = [meets(part, row) for part in condition[1]]
    return not truths[0] if condition[0] == "not" else all(truths) if condition[0] == "and" else any(truths)


def may_be(sign, low, high, literal):
    """Whether some value of a range may compare so with a literal."""
    if sign == b"=":
        return low <= literal <= high
    if sign in (b"!=", b"<>"):
        return not low == high == literal
    return COMPARED[sign](low if sign in (b"<", b"<=") else high, literal)


def can(condition, box):
    """Whether a condition may be true, and whether it may be false, in a box of a range, a set of values or nothing for each column."""
    if condition[0] == "test":
        _, place, sign, literals = condition
        if box[place] is None:
            return True, True
        if isinstance(box[place], set):
            truths = [any(COMPARED[sign](value, literal) for literal in literals) for value in box[place]]
            return any(truths), not all(truths)
        low, high = box[place]
        yes = any(may_be(sign, low, high, literal) for literal in literals)
        return yes, all(may_be(OTHER[sign], low, high, literal) for literal in literals)
    parts = [can(part, box) for part in condition[1]]
    if condition[0] == "not":
        return parts[0][1], parts[0][0]
    yes, no = [part[0] for part in parts], [part[1] for part in parts]
    return (all(yes), any(no)) if condition[0] == "and" else (any(yes), all(no))


def box_of(schema, partition, first, last):
    """The box of a partition's rows from one key to another."""
    box = [None] * len(schema["columns"])
    for place in schema["primary"]:
        box[place] = first[place], last[place]
        if first[place] != last[place]:
            break
    if schema["partition"] is not None:
        box[schema["partition"]] = partition, partition
    return box


def kept_of(values, most):
    """What an index keeps of the values of a block: their range, or each of them; nothing of more than the most values of a set."""
    if most is None:
        return min(values), max(values)
    return set(values) if len(set(values)) <= (most or 4294967295) else None


def index_box(schema, index, rows, start):
    """The box of the block of an index in which the row at a place is."""
    place, most, granules = index
    size = schema["granularity"] * granules
    first = start // size * size
    box = [None] * len(schema["columns"])
    box[place] = kept_of([row[place] for row in rows[first:first + size]], most)
    return box


# ---- merges, by docs/engines.md

def wrapped(kind, number):
    """A number at the width of a type."""
    end = 1 << BITS[kind]
    number %= end
    return number - end if not kind.startswith(b"U") and number >= end // 2 else number


def aggregate_of(function, kind, values):
    """What the function of a column makes of its values."""
    folded = values[0]
    for value in values[1:]:
        folded = {
            b"any": lambda: folded, b"anyLast": lambda: value, b"min": lambda: min(folded, value), b"max": lambda: max(folded, value),
            b"sum": lambda: wrapped(kind, folded + value), b"groupBitAnd": lambda: folded & value,
            b"groupBitOr": lambda: folded | value, b"groupBitXor": lambda: folded ^ value,
        }[function]()  # fmt: skip
    return folded


def the_one(rows):
    """A row of several that are alike: which one is left is a choice of the code, on which no case may rest."""
    assert all(row == rows[0] for row in rows), rows
    return rows[0]


def with_sums(schema, places, rows, row):
    """A row with the sums of rows in the summed columns."""
    kinds = [kind for _, kind, _ in schema["columns"]]
    return [wrapped(kinds[place], sum(row[place] for row in rows)) if place in places else value for place, value in enumerate(row)]


def collapsed(sign, rows):
    states, cancels = [row for row in rows if row[sign] == 1], [row for row in rows if row[sign] == -1]
    if len(states) != len(cancels):
        return states[-1:] if len(states) > len(cancels) else cancels[:1]
    return [cancels[0], states[-1]] if rows[-1][sign] == 1 else []


def paired_off(sign, rows):
    left = sum(row[sign] for row in rows)
    alike = [row for row in rows if row[sign] * left > 0]
    return [the_one(alike)] * abs(left) if abs(left) < len(alike) else alike


def folded(schema, rows):
    """What a merge leaves of the rows of one key."""
    engine, named = schema["engine"]
    if engine == PLAIN:
        return rows
    if engine == REPLACING:
        return [max(enumerate(rows), key=lambda each: ([each[1][place] for place in named], each[0]))[1]]
    if engine == SUMMING:
        row = the_one([with_sums(schema, named, rows, row) for row in rows])
        return [row] if any(row[place] for place in named) else []
    if engine == COLLAPSING:
        return collapsed(named[0], rows)
    if engine == VERSIONED:
        return paired_off(named[0], rows)
    columns = zip(schema["columns"], zip(*rows))
    return [[aggregate_of(function or b"any", kind, list(values)) for (_, kind, function), values in columns]]


def folded_by_key(schema, rows):
    """What a merge leaves of rows of one partition, key by key."""
    key = lambda row: [row[place] for place in order_of(schema)]
    groups = itertools.groupby(sorted(rows, key=key), key)
    return [row for _, group in groups for row in folded(schema, list(group))]


def merged(schema, parts):
    """The part that neighbours become."""
    rows = folded_by_key(schema, [row for part in parts for row in part["rows"]])
    return {
        "table": parts[0]["table"],
        "partition": parts[0]["partition"],
        "rows": rows,
        "least": parts[0]["least"],
        "greatest": parts[-1]["greatest"],
        "level": 1 + max(part["level"] for part in parts),
    }


def are_near(left, right):
    few, many = sorted([len(left["rows"]), len(right["rows"])])
    return many <= 2 * few + 1000


def text_of(partition):
    """A partition's id."""
    return b"all" if partition is None else b"%d" % partition


class Fault(Exception):
    """A call of the outside that fails."""


class Unknown(Exception):
    """What is asked is not worked out."""


class Disk:
    """A disk in memory: what was published, each a table with its schema or a part, how much of that is settled, its count of faults, and
    that of its arm. It stops after some calls of its own, and the calls that are listed fail: each an arm, a stage and a kind, where they
    are not the disk's, with its number among those."""

    def __init__(self, published=(), stop=None, failing=()):
        self.published, self.settled, self.faults, self.noted = list(published), len(published), 0, 0
        self.plan(stop, failing)

    def plan(self, stop, failing=()):
        """What fails of the next run."""
        self.stop, self.failing, self.made, self.arm_faults, self.stages = stop, set(failing), collections.Counter(), 0, 0

    def call(self, arm, stage, kind):
        """Makes a call."""
        number = self.made[arm, stage, kind]
        self.made[arm, stage, kind] += 1
        is_stopped = arm is None and self.stop is not None and self.made_alone() > self.stop
        if is_stopped or (arm, stage, kind, number) in self.failing:
            self.faults += arm is None
            self.arm_faults += arm is not None
            raise Fault

    def made_alone(self):
        """How many calls the disk made that are no arm's."""
        return sum(count for (arm, _, _), count in self.made.items() if arm is None)

    def publish(self, change):
        self.call(None, None, "publish")
        self.published.append(change)

    def sync(self):
        self.call(None, None, "sync-names")
        self.settled = len(self.published)

    def write(self, files, appends):
        """Writes a stage of this many files by so many appends, and then syncs each of them."""
        self.call(0, None, "stage")
        for kind in ["append"] * appends + ["sync"] * files:
            self.call(0, self.stages, kind)
        self.stages += 1

    def read(self, parts, columns):
        """Reads that many columns of each part that has rows, each of one granule, by one call."""
        for _ in range(columns * sum(len(part["rows"]) > 0 for part in parts)):
            self.call(0, None, "read")

    def read_chosen(self, columns, chosen):
        """Reads that many columns of the chosen granules of each part, column by column, and neighbouring granules at once."""
        for own in chosen:
            runs = sum(is_chosen and not before for before, is_chosen in zip([False] + own, own))
            for _ in range(columns * runs):
                self.call(0, None, "read")

    def image(self, choice):
        """What a crash leaves by a choice: what is settled, and of the rest what its bits say."""
        rest = self.published[self.settled:]
        return Disk(self.published[:self.settled] + [change for bit, change in enumerate(rest) if choice >> bit & 1])


def visible(parts):
    """The parts that no other one of their partition covers, in block order."""
    found = []
    for part in sorted(parts, key=lambda part: (text_of(part["partition"]), part["least"], -part["greatest"], -part["level"])):
        if not found or found[-1]["partition"] != part["partition"] or found[-1]["greatest"] < part["greatest"]:
            found.append(part)
    return found


class Store:
    """What was accepted: tables, each with its schema and its parts in block order, of a partition, blocks, a level and sorted rows; and
    the list of the commands, of those before a run no more than their tables. The policy is that of merges."""

    def __init__(self, policy=b"near", disk=None):
        self.tables, self.commands, self.policy, self.disk, self.opened = {}, [], policy, disk or Disk(), 0

    @property
    def length(self):
        return len(self.commands)

    def open(self):
        """Opens what the disk lists: each entry and each visible part, and settles the names."""
        self.tables, self.commands, self.opened = {}, [], self.disk.faults
        for kind in "start", "arm", "list":
            self.disk.call(None, None, kind)
        published = self.disk.published
        for change in published:
            if "schema" in change:
                own = visible(part for part in published if part["table"] == change["table"] and "schema" not in part)
                self.tables[change["table"]] = change["schema"], own
                self.commands += [(change["table"],)] * (1 + max([part["greatest"] for part in own], default=0))
                for _ in range(1 + len(own)):
                    self.disk.call(None, None, "open")
        if published:
            self.disk.sync()

    def turn(self, change, accepted):
        """Publishes a change and settles it, unless the disk failed before."""
        if self.disk.faults > self.opened:
            raise Refused(f"E17 {self.opened} {self.disk.faults} {accepted}")
        try:
            self.disk.publish(change)
            self.disk.sync()
        except Fault:
            raise Refused(f"E16 {accepted}") from None

    def create(self, create):
        schema, table = schema_of(create), create["table"]
        self.disk.write(1, 1)
        if table in self.tables:
            raise Refused(b"E03 " + table)
        if len(self.tables) == 64:
            raise Refused(b"E12 tables 64")
        self.turn({"table": table, "schema": schema}, 0)
        self.tables[table] = schema, []
        self.note(table, schema)
        return f"OK {self.length}\n".encode()

    def note(self, *command):
        """Adds a command to the list."""
        self.commands.append(command)
        self.disk.noted += 1

    def write(self, schema, rows):
        """Writes the stage of a part of rows: its files are made without bytes, the columns grow by each granule, and then come marks, keys,
        indexes and the manifest."""
        columns, others = len(schema["columns"]), len(schema["indexes"]) + 2
        granules = -(-len(rows) // schema["granularity"])
        self.disk.write(columns + others + 1, columns + others + columns * granules + others + 1)

    def insert(self, table, data):
        schema, parts = self.found(table)
        groups = {}
        for row in rows_of(schema, data):
            groups.setdefault(None if schema["partition"] is None else row[schema["partition"]], []).append(row)
        for rows in groups.values():
            self.write(schema, rows)
        for accepted, (partition, rows) in enumerate(groups.items()):
            if len(self.parts_in(parts, partition)) == 3000:
                raise Refused(f"E12 parts 3000 {accepted}")
            number = sum(command[0] == table for command in self.commands)
            own = sorted(rows, key=lambda row: [row[place] for place in order_of(schema)])
            part = {"table": table, "partition": partition, "rows": own, "least": number, "greatest": number, "level": 0}
            self.turn(part, accepted)
            parts.append(part)
            self.note(table, partition, rows)
        return f"OK {self.length}\n".encode()

    def parts_in(self, parts, partition):
        """The parts of a partition, in block order."""
        return [part for part in parts if part["partition"] == partition]

    def merge(self, schema, parts, sources):
        """Merges neighbours, and puts what they become in their place."""
        self.disk.read(sources, len(schema["columns"]))
        part = merged(schema, sources)
        self.write(schema, part["rows"])
        if part["level"] > MOST_LEVEL:
            raise Refused(f"E12 levels {MOST_LEVEL}")
        self.turn(part, 0)
        parts[:] = [part if each is sources[0] else each for each in parts if all(each is not source for source in sources[1:])]

    def optimize(self, table, id, whole):
        """One merge by the policy, or each partition to one part."""
        schema, parts = self.found(table)
        partitions = sorted({part["partition"] for part in parts if id is None or text_of(part["partition"]) == id}, key=lambda p: (p is not None, p))
        for partition in partitions:
            own = self.parts_in(parts, partition)
            if whole:
                self.merge(schema, parts, own)
                continue
            pairs = [pair for pair in zip(own, own[1:]) if self.policy != b"near" or are_near(*pair)]
            pairs = [pair for pair in pairs if max(part["level"] for part in pair) < MOST_LEVEL]
            if pairs:
                self.merge(schema, parts, pairs[-1 if self.policy == b"tail" else 0])
                break
        return f"OK {self.length}\n".encode()

    def found(self, table):
        if table not in self.tables:
            raise Refused(b"E02 " + table)
        return self.tables[table]

    def asked(self, table, columns, condition):
        """The table, the places of the columns that are selected, and the condition."""
        schema, parts = self.found(table)
        names = schema["names"] if columns is None else columns
        for name in names + [test[1] for test in tests_of(condition)]:
            if name not in schema["names"]:
                raise Refused(b"E04 " + name)
        return schema, parts, [schema["names"].index(name) for name in names], asked_of(schema, condition)

    def seen(self, schema, parts, is_final, condition):
        """The rows that a SELECT sees and that meet its condition: with FINAL what the chosen granules of each partition fold to, of which
        it is asked as well that the granules which are not chosen would add nothing."""
        if not is_final:
            return [row for part in parts for row in part["rows"] if meets(condition, row)]
        found = []
        for partition in {part["partition"] for part in parts}:
            own = self.parts_in(parts, partition)
            wholly, chosen = [], []
            for part in own:
                wholly += part["rows"]
                for granule, is_chosen in enumerate(self.chosen(schema, part, True, condition)):
                    size = schema["granularity"]
                    chosen += part["rows"][size * granule:size * granule + size] if is_chosen else []
            rows = [row for row in folded_by_key(schema, chosen) if meets(condition, row)]
            assert rows == [row for row in folded_by_key(schema, wholly) if meets(condition, row)]
            found += rows
        return found

    def select(self, table, columns, is_final, condition):
        schema, parts, places, condition = self.asked(table, columns, condition)
        if is_final:
            self.disk.read_chosen(len(schema["columns"]), [self.chosen(schema, part, True, condition) for part in parts])
        elif condition != ("and", []) and self.disk.failing:
            raise Unknown
        else:
            self.disk.read(parts, len(set(places)))
        rows = self.seen(schema, parts, is_final, condition)
        found = sorted([row[place] for place in places] for row in rows)
        lines = [b"ROWS %d PREFIX %d" % (len(found), self.length)]
        for row in found:
            lines.append(b"\t".join(escaped(value) if isinstance(value, bytes) else b"%d" % value for value in row))
        return b"\n".join(lines) + b"\n"

    def chosen(self, schema, part, is_final, condition):
        """Whether each granule of a part is chosen: by the box of its marks and, without FINAL, by that of its block of each skip index."""
        partition, rows, size = part["partition"], part["rows"], schema["granularity"]
        starts = range(0, len(rows), size)
        ends = [rows[start] for start in starts][1:] + rows[-1:]
        boxes = [[box_of(schema, partition, rows[start], end)] for start, end in zip(starts, ends)]
        for index in [] if is_final else schema["indexes"]:
            for start, own in zip(starts, boxes):
                own.append(index_box(schema, index, rows, start))
        chosen = [all(can(condition, box)[0] for box in own) for own in boxes]
        for start, is_chosen in zip(starts, chosen):
            assert is_chosen or not any(meets(condition, row) for row in rows[start:start + size])
        return chosen

    def explain(self, table, columns, is_final, condition):
        schema, parts, _, condition = self.asked(table, columns, condition)
        chosen = [self.chosen(schema, part, is_final, condition) for part in parts]
        told = sum(map(any, chosen)), len(parts), sum(map(sum, chosen)), sum(map(len, chosen)), self.length
        return b"PARTS %d/%d GRANULES %d/%d PREFIX %d\n" % told

    def answer(self, statement, data):
        """The reply to a statement."""
        if isinstance(statement, Refused):
            raise statement
        kind, *rest = statement
        return getattr(self, kind)(*rest, *([data] if kind == "insert" else []))

    def run(self, script):
        """The status and the replies of a script."""
        status, replies = 0, []
        try:
            self.open()
        except Fault:
            return 5, b""
        for statement, data in statements_of(script):
            try:
                replies.append(self.answer(statement, data))
            except Fault:
                replies.append(b"E15\n")
            except Refused as refusal:
                line = refusal.line.encode() if isinstance(refusal.line, str) else refusal.line
                replies.append(line + b"\n")
                status = 1
        self.disk.faults += self.disk.arm_faults
        return 5 if self.disk.faults > self.opened else status, b"".join(replies)


def names_of(disk):
    """The names of a disk, in the order of their bytes."""
    found = []
    for change in disk.published:
        if "schema" in change:
            found.append(change["table"] + b".create")
        else:
            blocks = change["least"], change["greatest"], change["level"]
            found.append(b"%s.part_%s_%d_%d_%d" % (change["table"], text_of(change["partition"]), *blocks))
    return sorted(found)


def bytes_of(text):
    """The bytes that a directive writes."""
    found = {b"\\n": b"\n", b"\\t": b"\t", b"\\\\": b"\\"}
    taken = re.compile(rb"\\x([0-9a-f]{2})|\\[nt\\]")
    return b"" if text == b'""' else taken.sub(lambda m: bytes([int(m[1], 16)]) if m[1] else found[m[0]], text)


def shown(replies):
    """Replies as an answer shows them."""
    if len(replies) > 1000:
        return b"%d bytes, SHA-256 %s" % (len(replies), hashlib.sha256(replies).hexdigest().encode())
    names = {9: b"\\t", 10: b"\\n", 13: b"\\r", 34: b'\\"', 39: b"\\'", 92: b"\\\\"}
    plain = lambda byte: bytes([byte]) if 32 <= byte < 127 else b"\\x%02x" % byte
    return b'"' + b"".join(names.get(byte) or plain(byte) for byte in replies) + b'"'


SHOWN_TYPES = {b"String": b"Text"}
SHOWN_FUNCTIONS = dict(zip(FUNCTIONS, [b"Any", b"AnyLast", b"Min", b"Max", b"Sum", b"BitAnd", b"BitOr", b"BitXor"]))
SHOWN_ENGINES = {
    PLAIN: b"plain", REPLACING: b"replacing", SUMMING: b"summing",
    COLLAPSING: b"collapsing", VERSIONED: b"versioned", AGGREGATING: b"aggregating",
}  # fmt: skip


def schema_shown(schema):
    """A schema as a directive shows it."""
    placed = lambda word, places: b" ".join([word, *(b"%d" % place for place in places)])
    shown_columns = []
    for name, kind, function in schema["columns"]:
        words = [name, SHOWN_TYPES.get(kind, kind)] + ([SHOWN_FUNCTIONS[function]] if function else [])
        shown_columns.append(b" ".join(words))
    engine, places = schema["engine"]
    shown_parts = [placed(SHOWN_ENGINES[engine], places), placed(b"key", schema["sorting"]), placed(b"primary", schema["primary"])]
    if schema["partition"] is not None:
        shown_parts.append(placed(b"partition", [schema["partition"]]))
    shown_parts.append(b"granularity %d" % schema["granularity"])
    for name, (place, most, granules) in zip(schema["index_names"], schema["indexes"]):
        kind = b"MinMax" if most is None else b"Set(%d)" % most
        shown_parts.append(b"index %s of %d %s granularity %d" % (name, place, kind, granules))
    return b", ".join(shown_columns + shown_parts)


# ---- parts that are merged, by docs/engines.md and docs/formats.md

READERS = 3 * 32


def index_bytes(schema, index, rows):
    """The bytes of the file of a skip index."""
    place, most, granules = index
    kind, size, spelling = schema["columns"][place][1].decode(), schema["granularity"] * granules, b""
    for start in range(0, len(rows), size):
        values = [row[place] for row in rows[start:start + size]]
        kept = kept_of(values, most)
        if most is not None:
            # The distinct values in the order in which they come first, after their number.
            kept = list(dict.fromkeys(values)) if kept else []
            spelling += little(len(kept), 4)
        spelling += b"".join(spelled(kind, text_or_number(value)) for value in kept)
    return spelling


def text_or_number(value):
    """A value as `make_root.py` takes one."""
    return value.decode() if isinstance(value, bytes) else value


def manifest_of(schema, rows):
    """The bytes of the manifest of a part of rows."""
    kinds = [kind.decode() for _, kind, _ in schema["columns"]]
    indexes = [(f"s{number}.bin", index_bytes(schema, index, rows)) for number, index in enumerate(schema["indexes"])]
    rows = [[text_or_number(value) for value in row] for row in rows]
    return files_of(kinds, schema["primary"], rows, indexes, schema["granularity"])["manifest.bin"]


def line_of(row):
    """The line of a row."""
    return b"\t".join(escaped(value) if isinstance(value, bytes) else b"%d" % value for value in row) + b"\n"


def inputs_of(schema, text):
    """The rows of inputs, of which each has a bar after its lines."""
    texts = text.removesuffix(b"|").split(b"|") if text else []
    inputs = [rows_of(schema, lines_of(lines + b"\\.\n", 0)[0]) for lines in texts]
    key = lambda row: [row[place] for place in order_of(schema)]
    assert all(rows == sorted(rows, key=key) for rows in inputs), text
    return inputs


def stream(create, text):
    """What a merge of parts leaves, granule by granule. One granule of each is read before a row is taken, and never more of it."""
    statement, _ = next(statements_of(create))
    if statement[0] != "create" or not text:
        raise Unknown
    schema = schema_of(statement[1])
    inputs, size = inputs_of(schema, text), schema["granularity"]
    rows = [row for each in inputs for row in each]
    left, read = folded_by_key(schema, rows), sum(min(size, len(each)) for each in inputs)
    manifest = manifest_of(schema, left)
    granules = [left[start:start + size] for start in range(0, len(left), size)]
    told = b"inputs %d, rows %d, left %d, most read %d, alike" % (len(inputs), len(rows), len(left), read)
    told += b", manifest %d bytes, SHA-256 %s; granules" % (len(manifest), hashlib.sha256(manifest).hexdigest().encode())
    told += b"".join(b" " + shown(b"".join(map(line_of, granule))) for granule in granules)
    return told + b"; readers %d alike of %d" % (READERS, READERS)


# ---- events of the core, and random ones

class Dice:
    """Numbers that look random, as those of `random` of run_cases: those of a seed are the same each time."""

    def __init__(self, seed):
        self.state = seed

    def below(self, end):
        self.state = (self.state * 6364136223846793005 + 1442695040888963407) % (1 << 64)
        return (self.state >> 32) % end

    def one_of(self, words):
        return words[self.below(len(words))]


def drawn_events(dice):
    """A random list of events of the core, of which the first makes a table."""
    most, other = ["prst"[dice.below(4)] for _ in range(2)]
    events = [f"create {most}"]

    def accept(table):
        if dice.below(8) == 0:
            return f"create {table}"
        return f"insert {table} {dice.below(2)} {dice.below(3)}"

    def put(table):
        number, first, count = dice.below(2), dice.below(2), dice.below(4)
        return f"put {table} {number if table == 'p' else 'all'} {first} {count}"

    for _ in range(dice.below(9) + 8):
        table = other if dice.below(8) == 0 else most
        kind = dice.below(10)
        if kind <= 4:
            events.append(accept(table))
        elif kind <= 6:
            events.append(put(table))
        elif kind == 7:
            kind, done = dice.below(5), ("done", "lost")[dice.below(2)]
            events.append(f"crash {done} {accept(table) if kind < 3 else put(table)}" if kind else "crash")
        else:
            events.append(f"take {table}" if kind == 8 else f"read {dice.below(2)}")
    return events


class Course:
    """The core while events come, as a table's parts alone: for each table the partitions and blocks of its parts; and what they came to."""

    def __init__(self):
        self.tables, self.snapshots, self.tally = {}, 0, collections.Counter()

    def accepted(self, word, table, *numbers):
        """What an accept does, nothing where it is refused."""
        if word == "create":
            return None if table in self.tables else lambda: self.tables.update({table: (0, [])})
        if table not in self.tables:
            return None
        last, parts = self.tables[table]
        partition = numbers[0] if table == "p" else "all"
        return lambda: self.tables.update({table: (last + 1, parts + [(partition, last + 1)])})

    def merged(self, table, partition, first, count):
        """What a put does, nothing where it is refused."""
        first, count = int(first), int(count)
        last, parts = self.tables.get(table, (0, []))
        own = [part for part in parts if part[0] == partition]
        if not count or first + count > len(own):
            return None
        gone = own[first + 1:first + count]
        return lambda: self.tables.update({table: (last, [part for part in parts if part not in gone])})

    def done(self, word, *words):
        """What an accept or a put does."""
        return self.merged(*words) if word == "put" else self.accepted(word, *words)

    def event(self, word, *words):
        """One event."""
        done, given = None, False
        if word == "take":
            given = words[0] in self.tables
            self.snapshots += given
        elif word == "read":
            given = int(words[0]) < self.snapshots
        elif word == "crash":
            done = self.done(*words[1:]) if words and words[0] == "done" else None
            given, self.snapshots = True, 0
        else:
            done = self.done(word, *words)
            given = done is not None
        self.tally[{"create": "insert"}.get(word, word) if given else "refused"] += 1
        self.tally["sources"] += int(words[3]) if word == "put" and given else 0
        if done:
            done()


def course(events):
    """What a list of events of the core comes to: how many of each outcome there are. None leaves parts that do not stand."""
    made = Course()
    for event in events:
        made.event(*event.split(" "))
    words = len(events), *(made.tally[word] for word in ("insert", "put", "sources", "take", "read", "crash", "refused"))
    told = b"%d events: %d accepted, %d puts of %d parts, %d snapshots, %d reads, %d crashes, %d refused; after 0 the parts do not stand"
    return told % words


# ---- events with mutations and rewrites, row by row

EVENT_TABLES = {
    "c": b"(a UInt8, b Int8, c UInt8) ENGINE = CollapsingMergeTree(b) ORDER BY a",
    "d": b"(a UInt8, b UInt8, c UInt8, s Int8) ENGINE = VersionedCollapsingMergeTree(s, b) ORDER BY a",
    "g": b"(a UInt8, b SimpleAggregateFunction(max, UInt8), c UInt8) ENGINE = AggregatingMergeTree ORDER BY a",
    "m": b"(a UInt8, b UInt8, c UInt8) ENGINE = MergeTree ORDER BY a",
    "n": b"(a UInt8, b UInt8, c UInt8) ENGINE = ReplacingMergeTree(b) ORDER BY a",
    "p": b"(p UInt8, a UInt8) ENGINE = MergeTree PARTITION BY p ORDER BY a",
    "q": b"(a UInt8, b UInt8, c UInt8) ENGINE = SummingMergeTree(b) ORDER BY a",
    "r": b"(a UInt8, b UInt8) ENGINE = ReplacingMergeTree ORDER BY a",
    "s": b"(a UInt8, b UInt8) ENGINE = SummingMergeTree(b) ORDER BY a",
    "t": b"(a UInt8) ENGINE = MergeTree ORDER BY a",
}


def event_schema(table):
    """The schema of a table of the events, by the first letter of its name."""
    clauses = EVENT_TABLES.get(table[0], EVENT_TABLES["t"])
    (_, create), _ = next(statements_of(b"CREATE TABLE t " + clauses + b";"))
    return schema_of(create)


class NotOne(Exception):
    """An event that may not come."""


class Declined(Exception):
    """Why an event changes nothing."""


def version_of(part):
    """Up to which number mutations are in the rows of a part."""
    return part["least"] if part["mutation"] is None else part["mutation"]


def change_of(schema, word, *words):
    """A change that rows of a table may have: what is assigned, nothing where rows are deleted, and the condition."""
    place = lambda name: schema["names"].index(name.encode())
    assigned = None
    if word == "update":
        assigned, texts, words = [], words[0].split(","), words[1:]
        for name, value in (text.split("=") for text in texts):
            read = place(value[0]) if value[0].isalpha() else None
            more = int(value[1:] or 0) if read is not None else int(value)
            assigned.append((place(name), read, more))
    tests = [("test", place(words[0]), words[1].encode(), [int(words[2])])] if words else []
    ask_for_change(schema, assigned or [], tests)
    return assigned, ("and", tests)


def ask_for_change(schema, assigned, tests):
    """Refuses a change that rows of a table may not have: of key, partition, version, sign, sums and functions no column is assigned, of
    the last four none is read; and but for MergeTree conditions ask of the key alone."""
    engine, named = schema["engine"]
    apart = set(schema["sorting"]) | {schema["partition"]}
    kept = set(named) | {place for place, (_, _, function) in enumerate(schema["columns"]) if function}
    touched = {place for place, read, _ in assigned for place in (place, read) if place is not None}
    small = all(schema["columns"][place][1] == b"UInt8" for place in touched | {test[1] for test in tests})
    if {place for place, _, _ in assigned} & apart or touched & kept or not small:
        raise NotOne
    if len({place for place, _, _ in assigned}) < len(assigned):
        raise NotOne
    if engine != PLAIN and any(test[1] not in schema["sorting"] for test in tests):
        raise NotOne


def changed(change, rows):
    """Rows after a change."""
    assigned, condition = change
    if assigned is None:
        return [row for row in rows if not meets(condition, row)]
    found = []
    for row in rows:
        new = list(row)
        for place, read, more in assigned if meets(condition, row) else []:
            new[place] = more if read is None else (row[read] + more) % 256
        found.append(new)
    return found


class Machine:
    """The core while events come, row by row: the parts of each table with its mutations, and what each event gives."""

    def __init__(self):
        self.tables, self.snapshots, self.length = {}, [], 0

    def found(self, table):
        if table not in self.tables:
            raise Declined("no such table")
        return self.tables[table]

    def accepted(self, word, name, *words):
        """Accepts a command."""
        change = change_of(event_schema(name), *words) if word == "alter" else None
        if word == "create":
            if name in self.tables:
                raise Declined("the table is there")
            self.tables[name] = {"schema": event_schema(name), "parts": [], "mutations": [], "last": 0}
        else:
            table = self.found(name)
            table["last"] += 1
            if word == "alter":
                table["mutations"].append((table["last"], change))
            else:
                self.add_part(name, table, *map(int, words))
        self.length += 1
        return f"accepted {self.length}"

    def add_part(self, name, table, *numbers):
        """The part of an INSERT: two rows of a table with one column, or one row."""
        schema, number = table["schema"], table["last"]
        row = [*numbers, 0, 0][:len(schema["columns"])]
        row = [(value and 1) or -1 if kind == b"Int8" else value for value, (_, kind, _) in zip(row, schema["columns"])]
        rows = [row] if len(row) > 1 else sorted([number] for number in numbers[:2])
        part = {"table": name, "partition": None if schema["partition"] is None else row[schema["partition"]], "rows": rows}
        table["parts"].append(part | {"least": number, "greatest": number, "level": 0, "mutation": None})
        table["parts"].sort(key=lambda part: (part["partition"] is not None, part["partition"], part["least"]))

    def parts_in(self, name, id):
        """The parts of a partition."""
        return [part for part in self.found(name)["parts"] if text_of(part["partition"]).decode() == id]

    def waiting(self, table, part):
        """The mutations for which a part waits."""
        return [mutation for mutation in table["mutations"] if mutation[0] > version_of(part)]

    def merge(self, name, id, first, count):
        """Merges neighbours."""
        own, first, count = self.parts_in(name, id), int(first), int(count)
        if not count or first + count > len(own):
            raise Declined("no such neighbours")
        sources, table = own[first:first + count], self.tables[name]
        if any(self.waiting(table, left) != self.waiting(table, right) for left, right in zip(sources, sources[1:])):
            raise Declined("a mutation parts two of them")
        numbers = [part["mutation"] for part in sources if part["mutation"] is not None]
        try:
            part = merged(table["schema"], sources)
        except AssertionError:
            raise Unknown from None
        return table, sources, part | {"mutation": max(numbers, default=None)}

    def rewrite(self, name, id, first, count):
        """Applies the first of the mutations for which a part waits."""
        if name not in self.tables:
            raise Declined("no such table")
        own, first, count = self.parts_in(name, id), int(first), int(count)
        if first >= len(own):
            raise Declined("no such neighbours")
        table, part = self.tables[name], own[first]
        waiting = self.waiting(table, part)[:count]
        if not count or len(waiting) < count:
            raise NotOne
        rows = part["rows"]
        for _, change in waiting:
            rows = changed(change, rows)
        return table, [part], part | {"rows": rows, "mutation": waiting[-1][0]}

    def put(self, word, *words):
        """Puts what a merge or a rewrite leaves in the place of its sources."""
        table, sources, part = (self.merge if word == "put" else self.rewrite)(*words)
        parts = table["parts"]
        parts[:] = [part if each is sources[0] else each for each in parts if all(each is not source for source in sources[1:])]
        mutation = "" if part["mutation"] is None else f"_{part['mutation']}"
        return f"put {text_of(part['partition']).decode()}_{part['least']}_{part['greatest']}_{part['level']}{mutation}"

    def done(self, *words):
        """An accept or a put."""
        return (self.put if words[0] in ("put", "rewrite") else self.accepted)(*words)

    def take(self, name):
        """Takes a snapshot."""
        table = self.found(name)
        rows = []
        for part in table["parts"]:
            own = part["rows"]
            for _, change in self.waiting(table, part):
                own = changed(change, own)
            rows += own
        self.snapshots.append((rows, self.length))
        return f"snapshot {len(self.snapshots) - 1}"

    def read(self, number):
        """Reads a snapshot."""
        if int(number) >= len(self.snapshots):
            raise Declined("no such snapshot")
        rows, length = self.snapshots[int(number)]
        return shown(b"".join(b"\t".join(b"%d" % value for value in row) + b"\n" for row in rows)).decode() + f" after {length}"

    def crash(self, *words):
        """A crash between events, or within an accept or a put, which is done or not."""
        before = copy.deepcopy(self.tables), self.length
        try:
            if words:
                self.done(*words[1:])
        except Declined:
            pass
        if words and words[0] == "lost":
            self.tables, self.length = before
        self.snapshots = []
        return "began again"

    def event(self, word, *words):
        """One event, and what it gives."""
        try:
            return getattr(self, word)(*words) if word in ("take", "read", "crash") else self.done(word, *words)
        except Declined as why:
            return str(why)
        except NotOne:
            return "may not come"


def steps(events):
    """What each event of a list gives. None leaves parts that do not stand."""
    machine = Machine()
    return "; ".join([machine.event(*event.split(" ")) for event in events] + ["the parts stand"]).encode()


def drawn_change(dice, table):
    """A random change, of which the rows of some tables may not have each."""
    condition = dice.one_of(["", " a = 0", " a = 1", " a < 2", " a != 1", " a >= 1"] + [" b = 1", " c > 0"] * (table == "m"))
    if table in "prst" or dice.below(3) == 0:
        return "delete" + condition
    values = ["c=7", "c=c+1", "c=c-1", "c=c+255", "c=a", "c=c"] + ["b=c,c=b", "b=b+200", "c=b,b=0"] * (table == "m" or dice.below(8) == 0)
    return f"update {dice.one_of(values)}{condition}"


def drawn_steps(dice):
    """A random list of events with mutations and rewrites, of which the first two make tables."""
    most, other = [dice.one_of("cdgmmnpqrst") for _ in range(2)]
    events = [f"create {most}", f"create {other}"]

    def accept(table):
        if dice.below(12) == 0:
            return f"create {table}"
        if dice.below(5) < 2:
            return f"alter {table} {drawn_change(dice, table)}"
        fewest = {"c": 3, "d": 4, "g": 3, "m": 3, "n": 3, "q": 2}.get(table, 2)
        return f"insert {table} {' '.join(str(dice.below(2 if place == 0 else 3)) for place in range(fewest))}"

    def put(table):
        id, first = dice.below(2) if table == "p" else "all", dice.below(3)
        if dice.below(2) == 0:
            return f"rewrite {table} {id} {first} {dice.below(3) or 1}"
        return f"put {table} {id} {first} {dice.below(4)}"

    for _ in range(dice.below(13) + 12):
        table = other if dice.below(8) == 0 else most
        kind = dice.below(16)
        if kind <= 6:
            events.append(accept(table))
        elif kind <= 11:
            events.append(put(table))
        elif kind == 12:
            kind, done = dice.below(5), ("done", "lost")[dice.below(2)]
            events.append(f"crash {done} {accept(table) if kind < 3 else put(table)}" if kind else "crash")
        else:
            events.append(f"take {table}" if kind <= 13 else f"read {dice.below(2)}")
    return events + ["crash", f"take {most}", "read 0", f"take {other}", "read 1"]


# ---- random scripts over one small table

DRAWN_COLUMNS = {
    "p": ("UInt8", ["1", "2", "3", "0"], 2), "k": ("UInt8", ["2", "4", "3", "5"], 2), "j": ("UInt8", ["1", "2", "3", "0"], 2),
    "e": ("UInt8", ["1", "2", "3", "0"], 3), "v": ("UInt8", ["0", "1", "2", "3"], 4), "n": ("UInt8", ["0", "1", "128", "255"], 4),
    "m": ("Int8", ["0", "64", "-64", "-128"], 4), "g": ("Int8", ["1", "-1", "0", "2"], 2), "f": (None, ["1", "2", "4", "7"], 4),
    "s": ("SimpleAggregateFunction(sum, UInt64)", ["0", "1", "9223372036854775808", "18446744073709551615"], 4),
}  # fmt: skip
DRAWN_ENGINES = [
    ("MergeTree", "v"), ("ReplacingMergeTree", "v"), ("ReplacingMergeTree(e)", "ev"), ("SummingMergeTree", "nm"),
    ("CollapsingMergeTree(g)", "vg"), ("VersionedCollapsingMergeTree(g, e)", "evg"), ("AggregatingMergeTree", "fsv"),
]  # fmt: skip
DRAWN_FUNCTIONS = ["any", "anyLast", "min", "max", "groupBitAnd", "groupBitOr", "groupBitXor"]
DRAWN_REFUSALS = [
    "SELECT * FROM u FINAL;", "SELECT z FROM t FINAL;", "SELECT * FROM t FINAL WHERE k = 300;", "SELECT * FROM t FINAL FINAL;",
    "SELECT * FROM t WHERE z = 1;", "CREATE TABLE t (a UInt8) ENGINE = MergeTree ORDER BY a;", "OPTIMIZE TABLE u FINAL;",
    "INSERT INTO t;\n7\n\\.\n",
]  # fmt: skip
MOST_DRAWN_ROWS, MOST_DRAWN_OF_KEY = 10, 4


class DrawnTable:
    """A table that is drawn, and the places of its rows so far: of each the partition and the key."""

    def __init__(self, dice, is_settled):
        self.dice, self.is_settled, self.places = dice, is_settled, []
        self.engine, beside = dice.one_of(DRAWN_ENGINES)
        self.is_parted, self.has_second = dice.below(2) == 0, dice.below(3) == 0
        self.columns = "p" * self.is_parted + "k" + "j" * self.has_second + beside

    def value(self, column):
        """A value of a column that a literal says."""
        return self.dice.one_of(DRAWN_COLUMNS[column][1])

    def create(self):
        types = [self.dice.one_of(DRAWN_FUNCTIONS) if column == "f" else None for column in self.columns]
        elements = []
        for column, function in zip(self.columns, types):
            kind = f"SimpleAggregateFunction({function}, UInt8)" if function else DRAWN_COLUMNS[column][0]
            elements.append(f"{column} {kind}")
        index = self.dice.one_of(["", "minmax", "set(2)"])
        if index:
            column, granules = self.dice.one_of(self.columns), self.dice.one_of("123")
            elements.append(f"INDEX i {column} TYPE {index} GRANULARITY {granules}")
        parting = " PARTITION BY p" if self.is_parted else ""
        key = self.dice.one_of(["(k, j)", "(k, j) PRIMARY KEY k"]) if self.has_second else "k"
        ending = f"ORDER BY {key} SETTINGS index_granularity = {self.dice.one_of('123')};"
        return f"CREATE TABLE t ({', '.join(elements)}) ENGINE = {self.engine}{parting} {ending}"

    def cell(self, column, place, version, before):
        """The value of a row's column. The signs of a settled key alternate, and versioned rows agree beside the sign."""
        values, most = DRAWN_COLUMNS[column][1:]
        if column in "pkj":
            return values[place["pkj".index(column)]]
        if column == "e" or column == "v" and self.engine.startswith("Versioned"):
            return values[version]
        if column == "g" and self.is_settled and self.engine.startswith("Collapsing"):
            return values[before % 2]
        return values[self.dice.below(most)]

    def row(self):
        """A row, nothing where the table or its key has enough."""
        partition, key, second, version = (self.dice.below(end) for end in (2, 2, 2, 3))
        place = partition if self.is_parted else 0, key, second if self.has_second else 0
        before = self.places.count(place)
        if len(self.places) >= MOST_DRAWN_ROWS or before >= MOST_DRAWN_OF_KEY:
            return ""
        cells = [self.cell(column, place, version, before) for column in self.columns]
        self.places.append(place)
        return "\t".join(cells) + "\n"

    def insert(self):
        return "INSERT INTO t;\n" + "".join(self.row() for _ in range(self.dice.below(3) + 1)) + "\\.\n"

    def test(self):
        column = self.dice.one_of(self.columns)
        sign = self.dice.one_of(["=", "!=", "<", "<=", ">", ">="])
        return f"{column} {sign} {self.value(column)}"

    def condition(self):
        kind = self.dice.below(8)
        if kind < 2:
            return ""
        if kind in (4, 5):
            return f" WHERE {self.test()} {('AND', 'OR')[kind - 4]} {self.test()}"
        if kind == 7:
            column = self.dice.one_of(self.columns)
            return f" WHERE {column} IN ({self.value(column)}, {self.value(column)})"
        return f" WHERE {'NOT ' if kind == 6 else ''}{self.test()}"

    def select(self, is_final):
        kind = self.dice.below(3)
        columns = ", ".join(self.dice.one_of(self.columns) for _ in range(kind)) if kind else "*"
        return f"SELECT {columns} FROM t{' FINAL' if is_final else ''}{self.condition()};"

    def optimize(self):
        id = self.dice.one_of(["", "", "", " PARTITION ID 'all'", " PARTITION ID '1'", " PARTITION ID '2'"])
        return f"OPTIMIZE TABLE t{id}{self.dice.one_of(['', ' FINAL'])};"

    def statements(self):
        """The next statement, with what it is; an OPTIMIZE of a settled table with the same SELECT before and after it."""
        kind = self.dice.below(16)
        if kind < 4:
            return [("insert", self.insert())]
        if kind < 7:
            if not self.is_settled:
                return [("optimize", self.optimize())]
            select = "final", self.select(True)
            return [select, ("optimize", self.optimize()), select]
        if kind < 11:
            return [("final", self.select(True))]
        if kind < 13:
            return [("select", self.select(False))]
        if kind < 15:
            return [("explain", "EXPLAIN " + self.select(self.dice.below(2) == 0))]
        return [("refused", self.dice.one_of(DRAWN_REFUSALS))]


def drawn_stream(dice):
    """Random inputs of a merge of parts, of one partition: the two directives that say them."""
    table = DrawnTable(dice, False)
    create = table.create()
    schema = schema_of(next(statements_of(create.encode()))[0][1])
    key = lambda row: [row[place] for place in order_of(schema)]
    inputs = []
    for _ in range(dice.below(4) + 1):
        lines = [row.encode()[:-1] for row in (table.row() for _ in range(dice.below(5))) if row]
        rows = [row for row in rows_of(schema, (lines, True)) if schema["partition"] is None or row[schema["partition"]] == 1]
        inputs.append(b"".join(line_of(row) for row in sorted(rows, key=key)) + b"|")
    text = b"".join(inputs).decode().replace("\n", "\\n").replace("\t", "\\t")
    return [f"script {text}", f"stream {create}"]


def drawn_script(dice, is_settled):
    """A random script: the policy of its run, and its statements, each with what it is."""
    policy = dice.one_of([b"near", b"head", b"tail"])
    table = DrawnTable(dice, is_settled)
    statements = [("create", table.create()), ("insert", table.insert()), ("insert", table.insert())]
    for _ in range(dice.below(6) + 5):
        statements += table.statements()
    return policy, statements


class Bench:
    """What directives come to, where no damage is set up and each root began empty."""

    def __init__(self):
        self.case, self.script, self.is_known, self.left, self.named = b"", b"", False, None, {}
        self.set_up()

    def set_up(self):
        """Nothing fails of the next run, and its policy is the usual one."""
        self.policy, self.stop, self.failing = b"near", None, []

    def ran(self, disk, script):
        """How a run of a script over a disk ends."""
        status, replies = Store(self.policy, disk).run(script)
        return b"%d, %d accepted: %s" % (status, disk.noted, shown(replies))

    def run(self, disk):
        """The same of the script that stands, with what is set up."""
        disk.plan(self.stop, self.failing)
        return self.ran(disk, self.script)

    def allows(self, rest):
        """Whether a script may leave the history of another one and print a text."""
        first, second, text = (rest + b"  ").split(b" ", 2)
        found, wanted = Store(), Store()
        wanted.run(self.named[second])
        return found.run(self.named[first])[1] == bytes_of(text[:-2]) and found.commands == wanted.commands

    def each_stop(self, count):
        """The runs of the script whose disk stops after each number of calls."""
        for calls in range(count):
            yield b"stop %d: %s" % (calls, self.ran(Disk(stop=calls), self.script))

    def first_run(self, first):
        """A first run, over an empty disk that stops: the disk that it leaves, and how it ends."""
        disk = Disk(stop=first)
        return disk, self.ran(disk, self.script)

    def next_run(self, first, choice, calls, later):
        """The first run, a crash by a choice, where there is one, and the next run, whose disk stops."""
        disk, _ = self.first_run(first)
        disk = disk if choice is None else disk.image(choice)
        disk.plan(calls)
        return disk, self.ran(disk, later)

    def endings(self, *place):
        """How the next run ends, and then the last ones, over each image of what it leaves, each answer once."""
        disk, ending = self.next_run(*place)
        for choice in choices_of(disk):
            last = self.ran(self.next_run(*place)[0].image(choice), place[-1])
            ending += b"" if ending.endswith(last) else b", then " + last
        return ending

    def next_runs(self, first, choice, calls, later):
        """The endings over one root, equal neighbours once."""
        before = None
        for number in range(calls + 1):
            ending = self.endings(first, choice, number, later)
            if ending != before:
                yield b"  %d: %s" % (number, ending)
            before = ending

    def stops(self, rest, is_crashed):
        """The runs of a line of crashes or stops."""
        firsts, calls, later = rest.split(b" ", 2)
        for first in range(int(firsts) + 1):
            disk, ending = self.first_run(first)
            yield b"%d: %s" % (first, ending)
            for choice in choices_of(disk) if is_crashed else [None]:
                if choice is not None:
                    yield b" crash %d" % choice
                yield from self.next_runs(first, choice, int(calls), bytes_of(later))

    def failing_call(self, rest):
        """The call that a line says."""
        arm, stage, kind, number = rest.split(b" ")
        numbered = lambda word: None if word == b"-" else int(word)
        return numbered(arm), numbered(stage), kind.decode(), int(number)

    def set_line(self, word, rest):
        """Sets up what a line says of the script and of the next run."""
        words = re.fullmatch(rb"mergetree --path \S+(?: --policy[ =](near|head|tail))?", rest)
        if word == b"case":
            self.case = rest
        elif word in (b"script", b"add") or word in (b"check", b"run", b"again", b"probe") and rest:
            self.script = bytes_of(rest) if word != b"add" else self.script + bytes_of(rest)
        elif word == b"repeat":
            count, _, text = rest.partition(b" ")
            self.script += int(count) * bytes_of(text)
        elif word == b"words" and words:
            self.policy = words[1] or b"near"
        elif word == b"stop":
            self.stop = int(rest)
        elif word == b"fail":
            self.failing.append(self.failing_call(rest))
        elif word == b"new":
            self.is_known, self.left = not rest, None
        elif word == b"named":
            name, _, script = rest.partition(b" ")
            self.named[name] = bytes_of(script)
        elif word not in KNOWN:
            self.is_known, self.left = False, None
        if word in (b"probe", b"check", b"each", b"crashes", b"stops"):
            self.left = None

    def answers(self, word, rest):
        """What a line comes to, each line of it; nothing where none is worked out."""
        if word == b"check":
            yield b"both alike, " + self.ran(Disk(), self.script)
        elif word == b"run" and self.is_known:
            self.left = Disk()
            yield self.run(self.left)
        elif word == b"again" and self.left is not None:
            yield self.run(self.left)
        elif word == b"crash" and self.left is not None:
            self.left = self.left.image(int(rest))
        elif word == b"each" and rest.startswith(b"stop ") and self.is_known:
            yield from self.each_stop(int(rest[len(b"stop "):]))
        elif word in (b"crashes", b"stops"):
            yield from self.stops(rest, word == b"crashes")
        elif word == b"twin" and rest.startswith(b"schema "):
            made = Store()
            made.run(bytes_of(rest[len(b"schema "):]))
            yield b"%s and %s" % (*[schema_shown(made.commands[0][1])] * 2,)
        elif word == b"course":
            yield course(rest.decode().split(";"))
        elif word == b"steps":
            yield steps(rest.decode().split(";"))
        elif word == b"stream":
            yield stream(bytes_of(rest), self.script)
        elif word == b"allows":
            yield b"true" if self.allows(rest) else b"false"
        elif word == b"names" and self.left is not None:
            names = names_of(self.left)
            yield b"%d names%s" % (len(names), b"".join(b" " + shown(name) for name in names))

    def told(self, line):
        """The lines that a directive comes to; none where they are not worked out."""
        word, _, rest = line.partition(b" ")
        self.set_line(word, rest)
        try:
            return [b"  %s: %s" % (self.case, answer) for answer in self.answers(word, rest)]
        except Unknown:
            self.left = None
            return []
        finally:
            if word in RUNS:
                self.set_up()


RUNS = {b"run", b"again", b"check", b"probe", b"crash", b"crashes", b"stops", b"each", b"names", b"left"}
KNOWN = RUNS | {b"allows", b"course", b"steps", b"stream", b"bytes", b"twin", b"#", b""}


def choices_of(disk):
    """The numbers of what a crash may leave, each without and with the loss of what was not synced."""
    for choice in range(1 << len(disk.published) - disk.settled):
        yield choice
        yield choice + (1 << 63)


DRAWN = {
    "events": ("lists of events", lambda dice: ["course " + ";".join(drawn_events(dice))]),
    "steps": ("lists of events with mutations", lambda dice: ["steps " + ";".join(drawn_steps(dice))]),
    "streams": ("merges of parts", drawn_stream),
}


def drawn_lines(kind, dice, count, which):
    """Directives of so many random cases of a kind, under one name."""
    title, drawn = DRAWN[kind]
    return [f"case {title} {which}"] + [line for _ in range(count) for line in drawn(dice)]


def fill(lines):
    """Prints directives with what they come to."""
    bench = Bench()
    for line in lines:
        sys.stdout.buffer.write(line + b"\n")
        for told in bench.told(line):
            sys.stdout.buffer.write(told + b"\n")


def compare_answers(directives, answers):
    """Compares the answers of directives that are worked out, and gives how many there are and those that differ."""
    bench, place, tried, differ = Bench(), 0, 0, []
    for directive in directives:
        while place < len(answers) and answers[place] != directive:
            place += 1
        place += 1
        for number, told in enumerate(bench.told(directive), place):
            tried += 1
            if answers[number:number + 1] != [told]:
                differ.append((told, answers[number] if number < len(answers) else b""))
    return tried, differ


def compare_cases():
    """Compares the answers of run_cases that are worked out."""
    with open(os.path.join(CASES, "stdin"), "rb") as lines:
        directives = lines.read().split(b"\n")
    with open(os.path.join(CASES, "stdout"), "rb") as lines:
        return compare_answers(directives, lines.read().split(b"\n"))


def compare_output():
    """Compares the answers of directives that the standard input has with them, as run_cases prints them."""
    lines = sys.stdin.buffer.read().split(b"\n")
    return compare_answers([line for line in lines if not line.startswith(b"  ")], lines)


def compare_built():
    """Compares the output that the cases of tests/built want, of those that are a script over a new folder."""
    known, tried, differ = {"script.sql", "script.sh", "stdout", "status", "files", "seconds"}, 0, []
    for name in sorted(os.listdir(BUILT)):
        folder = os.path.join(BUILT, name)
        files = set(os.listdir(folder))
        if not files <= known or not files & {"script.sql", "script.sh"}:
            continue
        if "script.sh" in files:
            script = subprocess.run(["bash", os.path.join(folder, "script.sh")], stdout=subprocess.PIPE, check=True).stdout
        else:
            script = read(folder, "script.sql")
        found = b"%d %s" % Store().run(script)
        wanted = (read(folder, "status").strip() or b"0") + b" " + read(folder, "stdout")
        tried += 1
        if found != wanted:
            differ.append((name.encode() + b": " + found[:2000], wanted[:2000]))
    return tried, differ


def read(folder, name):
    """The bytes of a file, none where it is not there."""
    path = os.path.join(folder, name)
    if not os.path.exists(path):
        return b""
    with open(path, "rb") as file:
        return file.read()


def main():
    if sys.argv[1:] == ["fill"]:
        text = sys.stdin.buffer.read()
        fill(text.split(b"\n")[:-1])
    elif sys.argv[1:2] and sys.argv[1] in DRAWN:
        print("\n".join(drawn_lines(sys.argv[1], Dice(int(sys.argv[2])), int(sys.argv[3]), f"of seed {sys.argv[2]}")))
    elif sys.argv[1:] in (["cases"], ["compare"]):
        failed = False
        compared = {"standard input": compare_output} if sys.argv[1] == "compare" else {"run_cases": compare_cases, "tests/built": compare_built}
        for name, (tried, differ) in ((name, compare()) for name, compare in compared.items()):
            for told, stood in differ:
                print(f"worked out {told.decode('utf-8', 'backslashreplace')}\n   written {stood.decode('utf-8', 'backslashreplace')}")
            print(f"{name}: {tried} answers worked out, {len(differ)} differ")
            failed = failed or differ or not tried
        sys.exit(1 if failed else 0)
    else:
        status, replies = Store().run(sys.stdin.buffer.read())
        sys.stdout.buffer.write(replies)
        sys.exit(status)


if __name__ == "__main__":
    main()
