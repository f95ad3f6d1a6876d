#!/usr/bin/env python3
"""Counts what the style of docs/CONTRIBUTING.md wants small, and prints each place with its file and line, and a total for each kind:

contracts with more than seven clauses in a row, clauses wider than 100 columns, relations of specs/ with more than five explicit
arguments, and functions of more than 40 lines, their contracts not counted. A blank line or a comment ends a row of clauses. It also
compares the crates of README.md's table and those of the picture in docs/architecture.md with crates.txt, each section of a page of
docs/ that is cited with the headings of that page, and each definition, function and case of docs/rules.md with the files. It reads the
repository alone, and takes a moment. The status is 0 whatever it finds, or 1 where the crates differ, or where something that a page
names is not there.
"""
import glob
import os
import re
import sys

ROOT = os.path.dirname(os.path.dirname(os.path.realpath(__file__)))
MOST_CLAUSES, MOST_COLUMNS, MOST_ARGUMENTS, MOST_LINES = 7, 100, 5, 40
FUNCTION = re.compile(r"^( *)(?:pub(?:\([a-z]+\))? )?(?:const |unsafe )*fn (\w+)")
CLAUSE = re.compile(r"^ *(?:requires|ensures)\b")
RELATION = re.compile(r"^(?:pub record|abbrev pub) (\S+)(.*)$")
RULE = re.compile(r"\| [^|]+ \| \[`(\w+)`\]\(\.\./([\w/.]+)\) \| `(\w+)` of `(\w+)` \| `([^|]+)` \|$")
CITATION = re.compile(r'([\w-]+\.md)(?:\]\([^)]*\))?, ((?:"[^"]+"(?:, | and )?)+)')


def lines_of(path):
    with open(os.path.join(ROOT, path), encoding="utf-8") as file:
        return file.read().split("\n")


def files(pattern):
    return sorted(os.path.relpath(path, ROOT) for path in glob.glob(os.path.join(ROOT, pattern), recursive=True))


class Function:
    """A function with its clauses. It is read line by line: its signature, its contract and its body."""

    def __init__(self, path, line, indent, name):
        self.path, self.line, self.indent, self.name = path, line, indent, name
        self.clauses, self.wide, self.lines = [], [], 0
        self.in_row, self.most_in_row = 0, 0


def functions(path):
    """The functions of a file of code, in rt fmt's layout: a body ends with a brace under the `fn`."""
    one, in_body, found = None, False, []
    for number, line in enumerate(lines_of(path), 1):
        if one is None:
            begins = FUNCTION.match(line)
            if not begins:
                continue
            one, in_body = Function(path, number, begins[1], begins[2]), False
            found.append(one)
        text = line.strip()
        if in_body or not (CLAUSE.match(line) or one.clauses) or text in ("{", "{}", "where"):
            one.lines += 1
        if not in_body:
            if CLAUSE.match(line):
                one.clauses.append(number)
                one.in_row += 1
                one.most_in_row = max(one.most_in_row, one.in_row)
            elif not text or text.startswith("//"):
                one.in_row = 0
            if one.clauses and text not in ("{", "{}") and len(line) > MOST_COLUMNS and one.clauses[-1] not in one.wide:
                one.wide.append(one.clauses[-1])
            in_body = text == "{" or (not one.clauses and text.endswith("{"))
            if text == "{}" or text.endswith(";") or (not one.clauses and text.endswith("}")):
                one = None
        elif line.startswith(one.indent + "}"):
            one = None
    return found


def pieces(telescope, split):
    """A type split where no bracket is open."""
    depth, piece, found = 0, "", []
    for sign in telescope:
        depth += (sign in "({[") - (sign in ")}]")
        if sign == split and depth == 0:
            found.append(piece.strip())
            piece = ""
        else:
            piece += sign
    return found + [piece.strip()]


def explicit(domain):
    """How many arguments a domain takes that are written at each use."""
    groups = re.findall(r"\(([^():]+) : ", domain) if domain.startswith("(") else None
    if domain.startswith("{"):
        return 0
    return sum(len(group.split()) for group in groups) if groups else 1


def record_arguments(rest):
    head = pieces(rest, ":")[0]
    depth, count, group = 0, 0, ""
    for sign in head:
        depth += (sign in "({") - (sign in ")}")
        group += sign
        if depth == 0 and group.strip():
            count += explicit(group.strip()) if group.strip()[0] in "({" else 0
            group = ""
    return count


def relations(path):
    """The relations of a file of definitions, each with its line and the number of its explicit arguments."""
    lines = lines_of(path)
    for number, line in enumerate(lines, 1):
        begins = RELATION.match(line)
        if not begins:
            continue
        rest, more = begins[2], number
        while more < len(lines) and lines[more].startswith("    ") and "Type 0" not in rest:
            rest += " " + lines[more].strip()
            more += 1
        if line.startswith("pub record"):
            yield number, begins[1], record_arguments(rest)
        elif rest.startswith(" : ") and rest.rstrip().endswith("Type 0"):
            yield number, begins[1], sum(map(explicit, pieces(rest[3:], "→")[:-1]))


def crates_of_table():
    """The crates of README.md's table, as its first column names them."""
    rows = [line.split(" | ")[0] for line in lines_of("README.md") if line.startswith("| ")]
    return [name for row in rows for name in re.findall(r"`(\w+)`", row)]


def words_of_picture():
    """The words of the picture of the layers in docs/architecture.md."""
    text = "\n".join(lines_of("docs/architecture.md"))
    return re.findall(r"\w+", text.split("## Layers", 1)[1].split("```")[1])


def crates_of_list():
    """The crates of crates.txt."""
    rows = [line.split("#")[0].partition(":") for line in lines_of("crates.txt")]
    return [name.split()[0] for name, colon, _ in rows if colon]


def report(title, places):
    for place in places:
        print(f"  {place}")
    print(f"{title}: {len(places)}")


def differences():
    table, picture, listed = crates_of_table(), words_of_picture(), crates_of_list()
    for name in listed:
        if table.count(name) != 1:
            yield f"the table of README.md has {name} {table.count(name)} times"
        if name not in picture:
            yield f"the picture of docs/architecture.md lacks {name}"
    for name in sorted(set(table) - set(listed)):
        yield f"the table of README.md has {name}, which crates.txt lacks"
    # (other words of the picture have no underscore)
    for name in sorted({word for word in picture if "_" in word} - set(listed)):
        yield f"the picture of docs/architecture.md has {name}, which crates.txt lacks"


def lost_citations():
    """The sections of pages of docs/ that are cited, in code, definitions or pages, and that the page has no heading of."""
    headings = {os.path.basename(path): set(re.findall(r"^#+ (.*)$", "\n".join(lines_of(path)), re.M)) for path in files("docs/*.md")}
    for path in [*files("README.md"), *files("docs/*.md"), *files("crates/*/*/**/*.rt"), *files("crates/*/*/**/*.antt")]:
        text = "\n".join(lines_of(path))
        # Prose is wrapped between any two words, and in code each line of it begins as a comment.
        for cited in CITATION.finditer(re.sub(r"\n *(?:(?:--|//[/!]?) )?", lambda it: " " * len(it[0]), text)):
            number = text.count("\n", 0, cited.start()) + 1
            for section in re.findall(r'"([^"]+)"', cited[2]):
                section = re.sub(r" +", " ", section)
                if cited[1] in headings and section not in headings[cited[1]]:
                    yield f"{path}:{number} {cited[1]} has no section {section}"


def lost_names():
    """The definitions, functions and cases of docs/rules.md that are not where it says."""
    cases = {line[5:] for line in lines_of("crates/run_cases/stdin") if line.startswith("case ")}
    cases |= set(os.listdir(os.path.join(ROOT, "tests/built/cases")))
    for number, line in enumerate(lines_of("docs/rules.md"), 1):
        row = RULE.match(line)
        if line.startswith("| ") and not row and "---" not in line and not line.startswith("| Rule |"):
            yield f"docs/rules.md:{number} is no row of a rule"
        if not row:
            continue
        definition, path, function, crate, case = row.groups()
        there = os.path.isfile(os.path.join(ROOT, path)) and "\n".join(lines_of(path))
        if not there or not re.search(rf"^(?:pub |abbrev |record |data )*{definition}(?: |$)", there, re.M):
            yield f"docs/rules.md:{number} {path} has no {definition}"
        source = "\n".join("\n".join(lines_of(file)) for file in files(f"crates/{crate}/src/**/*.rt"))
        if not re.search(rf"\b(?:fn|struct) {function}\b", source):
            yield f"docs/rules.md:{number} {crate} has no {function}"
        if case not in cases:
            yield f"docs/rules.md:{number} there is no case {case}"


def main():
    found = [one for path in files("crates/*/src/**/*.rt") for one in functions(path)]
    many = [one for one in found if one.most_in_row > MOST_CLAUSES]
    report("contracts with over 7 clauses in a row", [f"{one.path}:{one.line} {one.name}: {one.most_in_row}" for one in many])
    report("clauses over 100 columns", [f"{one.path}:{line} {one.name}" for one in found for line in one.wide])
    named = [(path, *one) for path in files("crates/*/specs/**/*.antt") for one in relations(path)]
    report(
        "relations over 5 arguments",
        [f"{path}:{line} {name}: {count}" for path, line, name, count in named if count > MOST_ARGUMENTS],
    )
    long = [one for one in found if one.lines > MOST_LINES]
    report("functions over 40 lines", [f"{one.path}:{one.line} {one.name}: {one.lines}" for one in long])
    differ = list(differences())
    report("differences between the lists of crates", differ)
    lost = list(lost_citations())
    report("cited sections that are not on their page", lost)
    gone = list(lost_names())
    report("names of docs/rules.md that are not there", gone)
    return 1 if differ or lost or gone else 0


if __name__ == "__main__":
    sys.exit(main())
