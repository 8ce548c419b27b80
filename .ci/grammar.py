#!/usr/bin/env python3
"""What is printed from the table of the grammar, crates/js_grammar/src/table.rt, beside the enumerations of its symbols.rt.

    .ci/grammar.py            writes docs/GRAMMAR.md, and of the crate src/heads.rt and proofs/Masks.antt
    .ci/grammar.py --check    ends with status 1 where one of them differs, and tells which
    .ci/grammar.py --test     tells at which rows the tests of the table fail, which the checker computes over it

GRAMMAR.md is for a reader to hold beside ECMA-262's annex of syntax. heads.rt says which productions begin by a terminal and which go on
by it; Masks.antt says which terminals go on with nothing: the tests of the table refuse a wrong line of either.
"""
import os
import re
import sys

TOP = os.path.dirname(os.path.dirname(os.path.abspath(__file__)))
CRATE = f"{TOP}/crates/js_grammar"
# What src/rules.rt says of lookahead, and proofs/Computed.antt of the one production that looks like an operator and is none.
LABEL = ("OfColon", "NameColon", "ProtoColon", "TargetColon")
REFUSED = {"Any": (), "NotBrace": ("LeftBrace",), "NotDeclaration": ("LeftBrace", "Function", "Class", *LABEL), "SameLine": ()}
NO_OPERATOR = ("ExpressionStatement",)
# Productions that go on where another may end; proofs/Dangling.antt shows that only one of the two can be.
BY_TREES = ("IfElseStatement", "NewWithArguments")
LINES = (False, True)


def text_of(path):
    with open(path, encoding="utf-8") as it:
        return it.read()


class Table:
    def __init__(self):
        symbols = text_of(f"{CRATE}/src/symbols.rt")
        table = text_of(f"{CRATE}/src/table.rt")
        enums = {}
        for name, body in re.findall(r"pub enum (\w+) \{\n(.*?)\n\}", symbols, re.S):
            enums[name] = re.findall(r"^    (\w+),", body, re.M)
            if name == "Terminal":
                self.meaning = dict((b, a) for a, b in re.findall(r"^    /// (.*)\n    (\w+),", body, re.M))
        self.terminals, self.productions, self.nonterminals = enums["Terminal"], enums["Production"], enums["Nonterminal"]
        self.number = {it: n for kind in enums.values() for n, it in reversed(list(enumerate(kind)))}
        of_kind = {kind: {it: n for n, it in enumerate(enums[kind])} for kind in enums}
        self.terminal_at, self.production_at, self.nonterminal_at = of_kind["Terminal"], of_kind["Production"], of_kind["Nonterminal"]
        self.sets = {}
        for doc, name, runs in re.findall(r"/// (.*)\npub const (\w+): Terminals = terminals!\((.*)\);", table):
            self.sets[name] = (self.members(runs, self.terminal_at), doc)
        last = re.search(r"pub const LAST: Productions = productions!\((.*)\);", table)[1]
        self.last = self.members(last, self.production_at)
        self.rules, self.notation = [], []
        rules = self.body(table, "RULES")
        for line in rules:
            row = re.fullmatch(r"(\w+) (\d+)(?: => (\w+))? \{ (.*) \}", line)
            if not row:
                self.notation.append((line, None, None, None))
                continue
            words = re.findall(r"\(\w+\)|\[\w+ [?*,]\]|\{\w+\}|\w+", row[4])
            self.rules.append([self.constituent(it) for it in words])
            self.notation.append((row[1], int(row[2]), words, row[3]))
        named = [name for name, levels, _, _ in self.notation if levels is not None]
        assert named == self.productions, "the rows of RULES are not in the order of Production"
        self.rows, names = [], []
        for line in self.body(table, "NONTERMINALS"):
            row = re.fullmatch(r"(\w+) \[(.*?)\] \[(.*?)\] (\w+) (\w+)", line)
            if row:
                names.append(row[1])
                self.rows.append(row)
        assert names == self.nonterminals, "the rows of NONTERMINALS are not in the order of Nonterminal"
        self.has = [self.members(row[2], self.production_at) for row in self.rows]
        self.may = [self.members(row[3], self.production_at) for row in self.rows]
        self.guard = [row[4] for row in self.rows]
        self.through = [None if row[5] == "None" else self.production_at[row[5]] for row in self.rows]
        self.closes = [bool(it & self.last) for it in self.has]
        self.operator = [self.is_operator(n) for n in range(len(self.rules))]
        each = range(len(self.rules))
        self.heads = [[f for f in each if self.begins(f, k)] for k in range(len(self.terminals))]
        self.operators = [[f for f in each if self.operator[f] and k in self.rules[f][1][1]] for k in range(len(self.terminals))]

    @staticmethod
    def body(text, name):
        begin = r"\$column! \{" if name == "RULES" else rf"pub static {name}: .*? = \w+! \{{"
        block = re.search(begin + r"\n(.*?)\n\s*\}", text, re.S)[1]
        return [line.strip() for line in block.split("\n")]

    @staticmethod
    def members(runs, at):
        found = set()
        for run in runs.split(", "):
            first, _, last = run.partition(" - ")
            found |= set(range(at[first], at[last or first] + 1))
        return frozenset(found)

    def constituent(self, word):
        name = word.strip("()[]{}")
        if word[0] == "(":
            return ("part", self.nonterminal_at[name])
        if word[0] == "[":
            return ("optional", self.nonterminal_at[name[:-2]], name[-1])
        return ("token", self.sets[name][0] if word[0] == "{" else frozenset([self.terminal_at[name]]))

    def begins(self, f, k):
        return self.rules[f][0][0] == "token" and k in self.rules[f][0][1]

    def is_operator(self, f):
        rule = self.rules[f]
        return self.productions[f] not in NO_OPERATOR and len(rule) > 1 and rule[0][0] == "part" and rule[1][0] == "token"

    # As specs/Table.antt has them.
    def passes(self, c, k, line):
        return self.terminals[k] not in REFUSED[self.guard[c]] and not (line and self.guard[c] == "SameLine")

    def first_in(self, c, forms):
        return next((f for f in forms if f in self.may[c]), None)

    def opens(self, c, k, line):
        first = self.first_in(c, self.heads[k])
        if first is not None:
            return (first,)
        if self.through[c] is None or self.rules[self.through[c]][0][0] != "part":
            return ()
        inner = self.rules[self.through[c]][0][1]
        first = self.first_in(inner, self.heads[k]) if self.passes(inner, k, line) else None
        return () if first is None else (self.through[c], first)

    def start(self, c, k, line):
        return self.opens(c, k, line) if self.passes(c, k, line) else ()

    def wrap(self, c, h, k):
        return next((f for f in self.operators[k] if f in self.may[c] and h in self.has[self.rules[f][0][1]]), None)

    # As proofs/Calm.antt has them.
    def follow(self, over, c, turn, rest):
        if turn == "?":
            return rest[1:] if over else rest
        if over:
            return rest
        return [("optional", c, "*") if turn == "*" else ("further", c)] + rest

    def comes(self, at_end, rule, k, line):
        for it in rule:
            if it[0] == "token":
                return k in it[1]
            if it[0] == "further":
                if k in self.sets["ANY_COMMA"][0]:
                    return True
            elif self.start(it[1], k, line):
                return True
            elif it[0] == "part":
                return False
        return at_end

    def unsettled(self, at_end, first, rule, k, line):
        """Returns the place of the first constituent that the terminal may go on with and may follow, or None."""
        for n, it in enumerate(rule):
            rest = rule[n + 1 :]
            if it[0] == "part" and not (first and n == 0):
                if self.comes(at_end, rest, k, line) and not self.harmless[it[1]][k]:
                    return n
            elif it[0] == "optional":
                ended = self.comes(at_end, rest, k, line)
                behind = self.comes(at_end, self.follow(False, it[1], it[2], rest), k, line)
                behind |= self.closes[it[1]] and self.comes(at_end, self.follow(True, it[1], it[2], rest), k, line)
                if ended and (self.start(it[1], k, line) or it[2] == "," and k in self.sets["ANY_COMMA"][0]):
                    return n
                if behind and not self.harmless[it[1]][k]:
                    return n
        return None

    def compute(self):
        """Finds which terminals go on with nothing of a nonterminal, and with nothing at the right edge of a production."""
        every = range(len(self.terminals))
        begin = [[not any(f in may for f in self.operators[k]) for k in every] for may in self.may]
        self.harmless, before = begin, None
        while self.harmless != before:
            before = self.harmless
            self.edge = [
                [all(self.unsettled(True, self.operator[f], rule, k, line) is None for line in LINES) for k in every]
                for f, rule in enumerate(self.rules)
            ]
            self.harmless = [[begin[c][k] and all(self.edge[f][k] for f in has) for k in every] for c, has in enumerate(self.has)]


def faults(it):
    """Tells where the tests of proofs/Tame.antt fail."""
    name, kind, place = it.productions, it.terminals, it.nonterminals
    every = range(len(kind))
    for c in range(len(place)):
        if not it.has[c] <= it.may[c]:
            yield f"{place[c]} has what it may not have"
        for k in every:
            for line in LINES:
                opened = it.opens(c, k, line)
                if opened and opened[0] not in it.may[c]:
                    yield f"{place[c]} opens {name[opened[0]]} at {kind[k]}"
        for f in sorted(it.may[c]):
            rule = it.rules[f]
            if it.operator[f]:
                if not it.may[rule[0][1]] <= it.may[c]:
                    yield f"{place[c]} may be {name[f]}, and may not be what its first part may be"
                for k in sorted(rule[1][1]):
                    for h in sorted(it.has[rule[0][1]]):
                        if it.wrap(c, h, k) != f:
                            yield f"{place[c]}: {name[h]} does not go on as {name[f]} at {kind[k]}"
            elif rule[0][0] == "token":
                for k in sorted(rule[0][1]):
                    if it.first_in(c, it.heads[k]) != f:
                        yield f"{place[c]} opens another than {name[f]} at {kind[k]}"
            else:
                for k in every:
                    for line in LINES:
                        opened = it.start(rule[0][1], k, line)
                        if it.passes(c, k, line) and opened and it.start(c, k, line) != (f, *opened):
                            yield f"{place[c]} does not open {name[f]} at {kind[k]}"
    for f, rule in enumerate(it.rules):
        for k in every:
            for line in LINES:
                n = it.unsettled(False, it.operator[f], rule, k, line)
                if n is not None:
                    yield f"{name[f]}: {kind[k]} may go on with constituent {n}, and follow it"
        if it.operator[f] and name[f] not in BY_TREES:
            for k in sorted(rule[1][1]):
                for h in sorted(it.has[rule[0][1]]):
                    if not it.edge[h][k]:
                        yield f"{name[f]}: {kind[k]} may go on at the right edge of {name[h]}"


HEADS = """// Which productions begin by a terminal, and which go on by it behind their first part. Printed by .ci/grammar.py from the table; the tests
// of the table refuse a wrong line.
use crate::symbols::{{Production, Terminal}};

macro_rules! heads {{
    ($($k:ident [$($a:ident)*] [$($b:ident)*])*) => {{
        [$((Terminal::$k, &[$(Production::$a),*], &[$(Production::$b),*])),*]
    }};
}}

/// The productions that begin by a terminal, and those that go on by it behind their first part.
pub static HEADS: [(Terminal, &'static [Production], &'static [Production]); {count}] = heads! {{
{rows}
}};
"""


def heads(it):
    names = lambda forms: " ".join(it.productions[f] for f in forms)
    rows = [f"    {name} [{names(it.heads[k])}] [{names(it.operators[k])}]" for k, name in enumerate(it.terminals)]
    return HEADS.format(count=len(rows), rows="\n".join(rows))


MASKS = """-- Which terminals go on with nothing of a nonterminal, and with nothing at the right edge of a production: a bit a terminal. Printed by
-- .ci/grammar.py from the table; the tests of the table check it.
use Rattle.std.proofs.Common.{ℕ, List, [], ◌∷◌}
"""


def masks(it):
    out = MASKS
    for name, rows in (("harmless_masks", it.harmless), ("edge_masks", it.edge)):
        numbers = [f"0x{sum(1 << n for n, yes in enumerate(row) if yes):x} ∷" for row in rows] + ["[]"]
        lines = [" ".join(numbers[n : n + 4]) for n in range(0, len(numbers), 4)]
        out += f"\nunfoldable pub {name} : List ℕ\n{name} =\n" + "".join(f"    {line}\n" for line in lines)
    return out


PAGE = """# The syntactic grammar

`.ci/grammar.py` prints this page from the table in `crates/js_grammar/src/table.rt`, which is part of the definition and which the parser \
reads: change the table, and run the script. It is to be held beside ECMA-262's annex "Grammar Summary". Names are ECMA-262's where it has \
one; `NoIn` stands for its parameter `[~In]`.

In a production `A` is a part, `A?` one that may be left out, `A*` any number of them, and `A,*` any number between commas, with a comma \
behind the last if need be; no element follows a rest element. What else stands is a token, or *one of* some. **Levels** says how many \
levels of nesting the production is by itself; an `else`, or the arguments of `new`, make none of their own. Of {levels} levels a tree may \
have, one more is too deep. A production marked **left out** is one of ECMA-262's that the language does not have; it has no more of it than \
what shows it, since a reader that comes to it ends there and names it. So are an assignment to a property of `super` (`super`), and a literal \
with `__proto__: v` that is no pattern (`proto`), which no row shows (`left_out_by`).

## Productions
"""


def page(it):
    def word(text):
        name = text.strip("()[]{}")
        if text[0] == "(":
            return f"*{name}*"
        if text[0] == "[":
            return f"*{name[:-2]}*" + {"?": "?", "*": "\\*", ",": ",\\*"}[name[-1]]
        return f"`{name}`"

    out = PAGE.format(levels=256)
    for name, levels, words, form in it.notation:
        if levels is None:
            out += f"\n### {name.lstrip('/ ').rstrip('.')}\n\n| Production | Constituents | Levels |\n|---|---|---|\n"
        else:
            out += f"| {name} | {' '.join(map(word, words))} | {levels if form is None else f'left out: `{form.lower()}`'} |\n"
    out += "\n## Nonterminals\n\nA run `A .. B` is the productions from A to B, in the order above. Where a partial tree may have others than the "
    out += "whole one, they stand in brackets: they may yet become the first part of one of the nonterminal's own. `docs/DEFINITIONS.md` leads to "
    out += "what a tree must be beside that (covers, targets, an `else` at the nearest `if`).\n\n| Nonterminal | Productions | May begin |\n|---|---|---|\n"
    begin = {"Any": "", "NotBrace": "not by `{`", "NotDeclaration": "not by `{`, `function`, `class`, a label", "SameLine": "on the same line"}
    for row in it.rows:
        runs = lambda text: text.replace(" - ", " .. ")
        may = "" if row[2] == row[3] else f" ({runs(row[3])})"
        out += f"| {row[1]} | {runs(row[2])}{may} | {begin[row[4]]} |\n"
    out += "\n## Terminals\n\n| Terminal | What it is |\n|---|---|\n"
    out += "".join(f"| `{name}` | {it.meaning[name]} |\n" for name in it.terminals)
    out += "\n| One of | Terminals | |\n|---|---|---|\n"
    for name, (members, doc) in it.sets.items():
        out += f"| `{name}` | {', '.join(f'`{it.terminals[k]}`' for k in sorted(members)) if len(members) < 12 else f'the {len(members)} from `{it.terminals[min(members)]}` to `{it.terminals[max(members)]}`'} | {doc} |\n"
    return out.replace("| |\n", "|  |\n")


def main():
    it = Table()
    it.compute()
    if "--test" in sys.argv:
        found = list(faults(it))
        print("\n".join(found) or "the tests of the table hold")
        return bool(found)
    made = {f"{TOP}/docs/GRAMMAR.md": page(it), f"{CRATE}/src/heads.rt": heads(it), f"{CRATE}/proofs/Masks.antt": masks(it)}
    differ = [path for path, text in made.items() if not os.path.exists(path) or text_of(path) != text]
    for path in differ:
        if "--check" in sys.argv:
            print(f"{os.path.relpath(path, TOP)} is not what .ci/grammar.py prints from the table")
        else:
            with open(path, "w", encoding="utf-8") as out:
                out.write(made[path])
    return "--check" in sys.argv and bool(differ)


sys.exit(main())
