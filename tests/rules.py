#!/usr/bin/env python3
"""What merges may leave of the rows of one key, worked out apart from the code from docs/engines.md.

For each engine and every list of at most five rows of one key with small values: what one merge leaves (run), what FINAL may
leave (folds), and what any merges may leave (partly). Checks the law: whatever was merged before, the fold of the rest is what
FINAL may leave of all rows. Prints, with the word `cases`, each list with all three, one a line; else only the counts.

    tests/rules.py [cases] [ENGINE ..]
    tests/rules.py fill           prints directives of run_cases that ask the rules of each of these lists, and of merges of inputs with
                                  several keys, each with all that may be left, and what they come to
    tests/rules.py compare        compares the stdin and stdout of run_cases with these
"""
import os
import sys
from itertools import combinations_with_replacement, product

LONGEST = 5


# ---- what one merge may leave of at least one row: a set of results, each a tuple of rows

def plain(rows):
    return {rows}


def last(rows):
    return {rows[-1:]}


def newest(rows):
    """Rows are (version, mark)."""
    greatest = max(version for version, _ in rows)
    return {tuple(row for row in rows if row[0] == greatest)[-1:]}


def summed(rows):
    """Rows are (m, n, mark): m and n are summed modulo 4, mark is carried from one of them."""
    m = sum(row[0] for row in rows) % 4
    n = sum(row[1] for row in rows) % 4
    if m == 0 and n == 0:
        return {()}
    return {((m, n, mark),) for _, _, mark in rows}


def collapsed(rows):
    """Rows are (sign, mark)."""
    states = [row for row in rows if row[0] == 1]
    cancels = [row for row in rows if row[0] == -1]
    if len(states) > len(cancels):
        return {(states[-1],)}
    if len(states) < len(cancels):
        return {(cancels[0],)}
    if rows[-1][0] == 1:
        return {(cancels[0], states[-1])}
    return {()}


def sublists(rows):
    found = {()}
    for row in rows:
        found |= {kept + (row,) for kept in found}
    return found


def versioned(rows):
    """Rows are (sign, mark), all of one version."""
    wanted = sum(row[0] for row in rows)
    return {
        kept
        for kept in sublists(rows)
        if len({row[0] for row in kept}) <= 1 and sum(row[0] for row in kept) == wanted
    }


def aggregated(rows):
    """Rows are (any, anyLast, min, max, sum modulo 4, groupBitAnd, groupBitOr, groupBitXor) of one small number each."""
    columns = list(zip(*rows))
    total = sum(columns[4]) % 4
    conjunction, disjunction, difference = 3, 0, 0
    for v in columns[5]:
        conjunction &= v
    for v in columns[6]:
        disjunction |= v
    for v in columns[7]:
        difference ^= v
    row = (columns[0][0], columns[1][-1], min(columns[2]), max(columns[3]), total, conjunction, disjunction, difference)
    return {(row,)}


def alternates(rows):
    return all(row[0] == (1 if place % 2 == 0 else -1) for place, row in enumerate(rows))


# ---- the lists

def marked(values):
    """Lists of values, each with the place as its mark, so that rows can be told apart."""
    for length in range(1, LONGEST + 1):
        for chosen in product(values, repeat=length):
            yield tuple(value + (place,) for place, value in enumerate(chosen))


def bare(values):
    for length in range(1, LONGEST + 1):
        yield from product(values, repeat=length)


ENGINES = {
    'plain': (plain, lambda: marked([()])),
    'replacing': (last, lambda: marked([()])),
    'replacing-version': (newest, lambda: marked([(0,), (1,), (2,)])),
    'summing': (summed, lambda: marked([(0, 0), (1, 0), (3, 0), (0, 2), (1, 2)])),
    'collapsing': (collapsed, lambda: marked([(1,), (-1,)])),
    'versioned': (versioned, lambda: marked([(1,), (-1,)])),
    'versioned-alike': (versioned, lambda: bare([(1, 0), (-1, 0)])),
    'aggregating': (aggregated, lambda: bare([(0,) * 8, (1,) * 8, (2,) * 8, (3,) * 8])),
}


# ---- merges at any times

def merges(run, rows):
    """All that one merge of neighbours may make of the rows."""
    for start in range(len(rows)):
        for end in range(start + 1, len(rows) + 1):
            for out in run(rows[start:end]):
                yield rows[:start] + out + rows[end:]


def partly(run, rows):
    """All that any number of merges may make of the rows."""
    found, fresh = {rows}, [rows]
    while fresh:
        for made in merges(run, fresh.pop()):
            if made not in found:
                found.add(made)
                fresh.append(made)
    return found


def leaves(run, rows):
    return run(rows) if rows else {()}


def folds(name, run, rows):
    """What FINAL may leave of at least one row."""
    if name == 'collapsing' and not alternates(rows):
        return {out for x in partly(run, rows) for out in leaves(run, x)}
    return run(rows)


def shown(rows):
    return ' '.join('(' + ','.join(map(str, row)) + ')' for row in rows) or '-'


# ---- directives of run_cases (docs/testing.md, "Rules")

# the directives' name of an engine; how a row of the lists above is written in its small table, without what need not be
WRITTEN = {
    'plain': ('plain', lambda row: str(row[0])),
    'replacing': ('replacing', lambda row: str(row[0])),
    'replacing-version': ('replacing-version', lambda row: f'{row[0]}{row[1]}'),
    'summing': ('summing', lambda row: f'{row[0]}{row[1]}{row[2]}'),
    'collapsing': ('collapsing', lambda row: f'{sign(row[0])}{row[1]}'),
    'versioned': ('versioned', lambda row: f'{sign(row[0])}{row[1]}'),
    'versioned-alike': ('versioned', lambda row: f'{sign(row[0])}{row[1]}'),
    'aggregating': ('aggregating', lambda row: ''.join(map(str, row))),
}
MOST = 125  # lists of a directive


def sign(number):
    return '+' if number == 1 else '-'


def written(name, rows):
    return ','.join(map(WRITTEN[name][1], rows)) or '-'


def given(name, rows):
    """A list, each row as short as it may be written: without a mark that is its place, and one letter for equal ones."""
    if name in ('plain', 'replacing', 'versioned-alike'):
        return written(name, rows)
    if name == 'aggregating':
        return ','.join(str(row[0]) for row in rows)
    short = ','.join(WRITTEN[name][1](row)[:-1] for row in rows)
    return written(name, rows) if short == '-' else short  # a list without rows is written so


def results(name, allowed):
    """What may be left. A star stands for the mark of any row."""
    if name == 'summing':
        return '|'.join(sorted({written(name, rows)[:-1] + '*' if rows else '-' for rows in allowed}))
    return '|'.join(sorted(written(name, rows) for rows in allowed))


def case(title, word, name, texts, rows, left):
    """A case, its directive and what it comes to."""
    yield f'case {title}'
    yield f'{word} {WRITTEN[name][0]} {" ".join(texts)}'
    yield f'  {title}: lists {len(texts)}, rows {rows}, left {left}'


def count_left(allowed):
    """How many rows are left, which is the same whichever result it is."""
    (count,) = {len(rows) for rows in allowed}
    return count


def fold_directives(name):
    """Each list of at most five rows, some lists a directive."""
    run, lists = ENGINES[name]
    for length in range(1, LONGEST + 1):
        chosen = [rows for rows in lists() if len(rows) == length]
        for start in range(0, len(chosen), MOST):
            some = chosen[start:start + MOST]
            texts = [f'{given(name, rows)}={results(name, run(rows))}' for rows in some]
            title = f'rule of {name}: lists of {length}' + (f', from {start + 1} on' if start else '')
            yield from case(title, 'fold', name, texts, length * len(some), sum(count_left(run(rows)) for rows in some))


# ---- merges of inputs, whose rows have a key in front

KEYED = {
    'plain': [()],
    'replacing': [()],
    'replacing-version': [(0,), (1,)],
    'summing': [(0, 0), (1, 0), (3, 0), (2, 2)],
    'collapsing': [(1,), (-1,)],
    'versioned': [(1,), (-1,)],
    'aggregating': [(1,) * 8, (2,) * 8],
}


def inputs_of(name, keys, values, shape):
    """Sorted inputs of these keys and values, of lengths of a shape; each row has its place in all of them as its mark."""
    place, inputs = 0, []
    for length in shape:
        rows = []
        for key, value in sorted(zip(keys[place:place + length], values[place:place + length]), key=lambda pair: pair[0]):
            rows.append((key, value if name == 'aggregating' else value + (place,)))
            place += 1
        inputs.append(rows)
    return inputs


def merged_inputs(name, inputs):
    """All that a merge of inputs may leave: for each key what the rule may leave of its rows, in the order of the inputs."""
    rows = sorted((pair for rows in inputs for pair in rows), key=lambda pair: pair[0])
    found = {()}
    for key in sorted({key for key, _ in rows}):
        run = ENGINES[name][0](tuple(row for own, row in rows if own == key))
        found = {front + tuple((key, row) for row in out) for front in found for out in run}
    return found


def keyed_text(name, pairs):
    """Keyed rows as they are written. A key of two columns is a number with two digits."""
    return ','.join(f'{key:02}' * (name == 'versioned') + f'{key}' * (name != 'versioned') + WRITTEN[name][1](row) for key, row in pairs) or '-'


def merge_directives(name):
    """Merges of up to four rows of two or three keys, in up to three inputs."""
    keys_of = [0, 1, 10, 11] if name == 'versioned' else [0, 1, 2]
    cases = []
    for shape in [(0,), (1,), (2,), (0, 1), (1, 1), (2, 1), (1, 2), (1, 1, 1), (2, 0, 1), (2, 2), (1, 2, 1)]:
        for keys in combinations_with_replacement(keys_of, sum(shape)) if sum(shape) > 3 else product(keys_of, repeat=sum(shape)):
            for turn in range(len(KEYED[name])):
                values = [KEYED[name][(place * place + turn) % len(KEYED[name])] for place in range(sum(shape))]
                inputs = inputs_of(name, keys, values, shape)
                if inputs not in cases:
                    cases.append(inputs)
    for start in range(0, len(cases), MOST):
        some = cases[start:start + MOST]
        allowed = [merged_inputs(name, inputs) for inputs in some]
        texts = []
        for inputs, found in zip(some, allowed):
            shown_inputs = '/'.join(keyed_text(name, rows) for rows in inputs) or '-'
            texts.append(f'{shown_inputs}={"|".join(sorted(keyed_text(name, rows) for rows in found))}')
        title = f'merges of {name}' + (f', from {start + 1} on' if start else '')
        rows = sum(len(rows) for inputs in some for rows in inputs)
        yield from case(title, 'merge', name, texts, rows, sum(map(count_left, allowed)))


# ---- random lists, cut into runs, which are merged in every order

# Of each engine: from how many letters a column is drawn, without key and mark; and what one merge leaves, where a rule has the choice as
# this project's code chooses: SummingMergeTree has the other columns of the first row, VersionedCollapsingMergeTree takes the last back.
def first_summed(rows):
    return next(out for out in summed(rows) if not out or out[0][2] == rows[0][2])


def last_taken_back(rows):
    kept = []
    for row in rows:
        if kept and kept[-1][0] != row[0]:
            kept.pop()
        else:
            kept.append(row)
    return tuple(kept)


def only(run):
    def chosen(rows):
        (out,) = run(rows)
        return out
    return chosen


DRAWN = {
    'plain': ([], only(plain)),
    'replacing': ([], only(last)),
    'replacing-version': ([3], only(newest)),
    'summing': ([4, 4], first_summed),
    'collapsing': ([2], only(collapsed)),
    'versioned': ([2], last_taken_back),
    'aggregating': ([3, 3, 3, 3, 4, 3, 3, 3], only(aggregated)),
}
RANDOM_LISTS, SEED = 10000, 20240229


class Dice:
    """The numbers that the directive draws."""

    def __init__(self, seed):
        self.state = seed

    def below(self, end):
        self.state = (self.state * 6364136223846793005 + 1442695040888963407) % 2**64
        return self.state // 2**32 % end


def drawn_rows(name, dice):
    """A list of one key."""
    count, alike, rows = dice.below(6) + 1, dice.below(4) == 0, []
    for place in range(count):
        values = tuple(dice.below(end) for end in DRAWN[name][0])
        if name in ('collapsing', 'versioned'):
            values = (1 - 2 * values[0],)
        rows.append(values if name == 'aggregating' else values + (0 if alike else place,))
    return rows


def drawn_runs(rows, dice):
    runs, run = [], ()
    for row in rows:
        if run and len(runs) < 3 and dice.below(2) == 0:
            runs.append(run)
            run = ()
        run += (row,)
    return runs + [run]


def in_order(fold, runs, order):
    """What FINAL gives after merges in the order of a number, and how many merges there were."""
    merges = len(runs) - 1
    while len(runs) > 1:
        order, at = divmod(order, len(runs) - 1)
        joined = runs[at] + runs[at + 1]
        runs = runs[:at] + [fold(joined) if joined else ()] + runs[at + 2:]
    return fold(runs[0]) if runs[0] else (), merges


def random_directives(name):
    """Lists that are drawn, and how many merges and different results there are."""
    dice, fold, merges, found = Dice(SEED), DRAWN[name][1], 0, 0
    for _ in range(RANDOM_LISTS):
        runs = drawn_runs(drawn_rows(name, dice), dice)
        tried = [in_order(fold, runs, order) for order in range([1, 1, 1, 2, 6][len(runs)])]
        merges += sum(count for _, count in tried)
        found += len({out for out, _ in tried})
    title = f'random lists of {name}'
    yield f'case {title}'
    yield f'random {SEED} {RANDOM_LISTS} {name}'
    yield f'  {title}: {RANDOM_LISTS} lists, {merges} merges, {found} results, of which 0 may not be'


def directives():
    yield ''
    yield '# The rule of each engine: what its three calls leave of every list of at most five rows of one key with small values, which is to be'
    yield '# one of the results after the equals sign.'
    for name in ENGINES:
        yield from fold_directives(name)
    yield ''
    yield '# Merges of sorted inputs, with slashes between them, whose rows have their key in front.'
    for name in KEYED:
        yield from merge_directives(name)
    yield ''
    yield '# Random lists, cut into runs, which are merged in every order; each result is held against what may be left.'
    for name in DRAWN:
        yield from random_directives(name)


def compare():
    """Whether the directives stand in the stdin of run_cases, and with their answers in its stdout."""
    folder = os.path.join(os.path.dirname(os.path.realpath(__file__)), '..', 'crates', 'run_cases')
    lines = list(directives())
    for name, wanted in (('stdin', [line for line in lines if not line.startswith('  ')]), ('stdout', lines)):
        with open(os.path.join(folder, name), encoding='utf-8') as file:
            if '\n'.join(wanted) + '\n' not in file.read():
                print(f'{name} of run_cases has other directives')
                return 1
    print(f'{sum(line.startswith("case ") for line in lines)} cases alike')
    return 0


def main():
    words = sys.argv[1:]
    if words == ['fill']:
        print('\n'.join(directives()))
        return
    if words == ['compare']:
        sys.exit(compare())
    printing = 'cases' in words
    names = [word for word in words if word != 'cases'] or list(ENGINES)
    broken = 0
    for name in names:
        run, lists = ENGINES[name]
        counted = widest = 0
        for rows in lists():
            counted += 1
            final = folds(name, run, rows)
            any_time = partly(run, rows)
            widest = max(widest, len(final))
            for x in any_time:
                if not leaves(run, x) <= final:
                    broken += 1
                    print(f'{name}: of {shown(rows)}, merged to {shown(x)}, is left {leaves(run, x)}, which FINAL may not leave')
            if name == 'collapsing':
                for out in final:
                    if len(out) > 2 or not set(out) <= set(rows):
                        broken += 1
                        print(f'{name}: of {shown(rows)} FINAL leaves {shown(out)}')
                ended = rows[-1:] if rows[-1][0] == 1 else ()
                if alternates(rows) and final != {ended}:
                    broken += 1
                    print(f'{name}: of {shown(rows)}, which alternates, FINAL leaves {final}')
            if printing:
                print(name, '|', shown(rows), '|', ' ; '.join(sorted(map(shown, run(rows)))), '|',
                      ' ; '.join(sorted(map(shown, final))), '|', ' ; '.join(sorted(map(shown, any_time))))
        print(f'{name}: {counted} lists, at most {widest} results with FINAL')
    print(f'{broken} broken')
    sys.exit(1 if broken else 0)


if __name__ == '__main__':
    main()
