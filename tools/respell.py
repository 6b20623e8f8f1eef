#!/usr/bin/env python3
"""Brings the repository's own names to the library's spelling, after its port script has run.

usage: respell.py [--check] FOLDER

Words are in snake case: `dayNumber` becomes `day_number`, `by-month` becomes `by_month`. In the name of a lemma a dash
stays between two names of definitions, as in `size-shift`. Types and modules, the names of Rust's items, and what is
imported from elsewhere keep their spelling. It goes by text: definitions and lemmas in specs/ and proofs/, ghost
imports and clauses in src/, must-fail edits, and names in backticks in pages and comments.

With --check it writes nothing and prints names that would fall together.
"""
import collections
import glob
import os
import re
import sys

WORD = re.compile(r"[^\s(){}.;,@\":«»`\[\]\\]+")
TOKEN = re.compile(r"(\.?)([^\s(){}.;,@\":«»`\[\]\\]+)")
COMMENT = re.compile(r"(^|\s)--\s.*$")
CAMEL = re.compile(r"^[a-z][A-Za-z0-9]*?[a-z0-9][A-Z]")
KEBAB = re.compile(r"^[A-Za-z][^-]*(?:-[^-]+)+$")
SIGNATURE = re.compile(
    r"^(\s*)((?:(?:pub|abbrev|unfoldable)\s+)*)([^\s(){}.;,@\":]+)((?:\s+[^\s(){}.;,@\":=]+)*)\s+:(?:\s|$)"
)
BLOCK = re.compile(r"^(\s*)(?:(?:pub|abbrev|unfoldable)\s+)*(data|record)\s")
# What the names of lemmas join beside the definitions of the repository and of the library.
OF_THE_LIBRARY = set(
    "append cons nil true false zero suc add sub mul div mod min max take drop length map set get_or le lt eq sym".split()
)
# Definitions whose names are also plain words in the names of lemmas.
PLAIN = set("above after again all any at before behind below best both by each empty end first from here in is".split())
PLAIN |= set("item items last later least left more most next none of one only or other over read rest right".split())
PLAIN |= set("same say says some start then there to two under whole with".split())
# Where the rule would let two names fall together, or take a word of the language.
CHOSEN = {
    # of the library, named by its module
    "not-nil": "not-nil",
    "noDate": "unreadable_date",
    "contextWord": "word_of_context",
    "toTerms": "distance_to_terms",
    "toContexts": "distance_to_contexts",
    "toLines": "distance_to_lines",
}


def snake(name):
    """Returns a name in camel case in snake case."""
    return re.sub(r"(?<=[a-z0-9?])([A-Z])", lambda m: "_" + m[1].lower(), name)


def files(kind):
    every = glob.glob("crates/*/specs/*.antt") + glob.glob("crates/*/proofs/**/*.antt", recursive=True)
    walks = [f for f in every if f.endswith("/Proof.antt")]
    return walks if kind == "walks" else [f for f in every if not f.endswith("/Proof.antt")]


def own_module(module):
    """Is this a module of specs/ or of a lemma file of the repository? Those that the check writes have a function's
    or a type's name in them."""
    parts = module.split(".")
    if parts[0] != "Rattle" or len(parts) < 4 or parts[1] not in CRATES:
        return False
    return parts[2] in ("specs", "proofs") and parts[3] != "declared" and len(parts) == 4


CRATES = set()


def uses(text):
    """Returns the imports of a file: pairs of a module and the list of its names, with their aliases."""
    found = []
    for m in re.finditer(r"^\s*(?:ghost )?(?:pub )?use ([^\s{;]+?)\.\{([^}]*)\}", text, re.M):
        found.append((m[1], [leaf.strip() for leaf in m[2].split(",") if leaf.strip()]))
    return found


def foreign(text):
    """Returns the names that a file imports from outside the repository, and from what the check writes."""
    names = set()
    for module, leaves in uses(text):
        if not own_module(module):
            names.update(leaf.split(" as ")[0].strip() for leaf in leaves)
    return names


def declared(path):
    """Yields the names that a file declares, each with its kind: definition, member (a field or a constructor)."""
    block = None
    for line in open(path):
        line = COMMENT.sub("", line.rstrip("\n"))
        if not line.strip():
            continue
        depth = len(line) - len(line.lstrip())
        if block is not None and depth <= block:
            block = None
        m = BLOCK.match(line)
        if m:
            block = len(m[1])
            continue
        m = SIGNATURE.match(line)
        if m and m[3] not in ("use", "unfolding", "where", "let", "in", "module", "λ"):
            kind = "member" if block is not None and depth > block else "definition"
            for name in [m[3]] + m[4].split():
                yield name, kind


def survey():
    """Returns the members and the definitions of the repository."""
    members, definitions = set(), set()
    for path in files("lemmas"):
        for name, kind in declared(path):
            (members if kind == "member" else definitions).add(name)
    return members, definitions


def camel_words():
    """Returns the words in camel case of specs/ and proofs/."""
    words = set()
    for path in files("lemmas") + files("walks"):
        for line in open(path):
            words.update(w for w in WORD.findall(COMMENT.sub("", line)) if CAMEL.match(w) and "-" not in w)
    return words


def joined(name, known):
    """Returns the name of a lemma with a dash between two names of definitions, and `_` between other words."""
    parts = [snake(p) for p in name.split("-")]
    pieces, i = [], 0
    while i < len(parts):
        for k in range(len(parts), i, -1):
            whole = "_".join(parts[i:k])
            if whole in known or k == i + 1:
                pieces.append((whole, whole in known))
                i = k
                break
    out, before = pieces[0][0], pieces[0][1]
    for word, is_name in pieces[1:]:
        out += ("-" if before and is_name else "_") + word
        before = is_name
    return out


class Names:
    def __init__(self):
        self.members, self.definitions = survey()
        plain = {n for n in self.definitions | self.members if "-" not in n}
        stated = {n for f in glob.glob("crates/*/specs/*.antt") for n, kind in declared(f) if kind == "definition"}
        self.known = {snake(n) for n in stated if n[0].islower() and "-" not in n and n not in PLAIN} | OF_THE_LIBRARY
        self.camel = {snake(n) for n in camel_words()}
        # lemmas that the port script respelled, and that a definition's new name falls on
        self.fallen = {n for n in plain if n in self.camel and n not in self.members}
        self.taken = self.camel | {n for n in plain if n not in self.fallen}

    def new(self, name):
        if name in CHOSEN:
            return CHOSEN[name]
        if KEBAB.match(name):
            lemma = name in self.definitions and name not in self.members
            new = joined(name, self.known) if lemma else snake(name).replace("-", "_")
            return new + "_lem" if new in self.taken and name not in self.members else new
        if name in self.fallen:
            return name + "_lem"
        return snake(name) if CAMEL.match(name) else name


def aliased(row, names):
    """Respells the names that a file gives to what it imports from elsewhere."""
    return re.sub(r" as ([^\s,};]+)", lambda m: " as " + (names.new(m[1]) if CAMEL.match(m[1]) else m[1]), row)


def respell_lemmas(text, names):
    """Respells specs/ and files of lemmas: every name that is not brought from elsewhere."""
    kept = foreign(text)

    def turn(m):
        dot, word = m[1], m[2]
        if word in kept and not dot or dot and word in names.fallen:
            return m[0]
        return dot + names.new(word)

    def line(row):
        note = COMMENT.search(row)
        code, note = (row[: note.start()], row[note.start() :]) if note else (row, "")
        use = re.match(r"\s*(?:pub )?use ([^\s{;]+?)\.\{", code)
        if use and not own_module(use[1]):
            return aliased(row, names)
        if re.match(r"\s*(?:pub )?(?:mod|use) [^{]*$", code):
            return row
        return TOKEN.sub(turn, code) + in_ticks(note, names)

    return "\n".join(line(row) for row in text.split("\n"))


def respell_walk(text, names):
    """Respells the proof of a function: names that it imports from the repository's own files, their members behind a
    dot, and words in camel case. What the check writes keeps its spelling."""
    brought = set()
    for module, leaves in uses(text):
        if own_module(module):
            brought.update(leaf.split(" as ")[0].strip() for leaf in leaves)

    def turn(m):
        dot, word = m[1], m[2]
        if CAMEL.match(word) and "-" not in word:
            return dot + names.new(word)
        if word in brought and not dot or dot and KEBAB.match(word) and word in names.members:
            return dot + names.new(word)
        return m[0]

    def line(row):
        note = COMMENT.search(row)
        code, note = (row[: note.start()], row[note.start() :]) if note else (row, "")
        use = re.match(r"\s*(?:pub )?use ([^\s{;]+?)(?:\.\{|\s|$)", code)
        if use and not (own_module(use[1]) and "{" in code):
            return aliased(row, names)
        return TOKEN.sub(turn, code) + in_ticks(note, names)

    return "\n".join(line(row) for row in text.split("\n"))


def in_ticks(text, names):
    """Respells names in backticks."""

    def turn(m):
        return "`" + TOKEN.sub(lambda t: t[1] + names.page(t[2]), m[1]) + "`"

    return re.sub(r"`([^`\n]+)`", turn, text)


def respell_source(text, names):
    """Respells ghost imports and clauses, by words in camel case or declared here with a dash; strings stay."""

    def turn(m):
        if CAMEL.match(m[2]) or KEBAB.match(m[2]) and m[2] in names.members | names.definitions:
            return m[1] + names.new(m[2])
        return m[0]

    def line(row):
        code, mark, note = row.partition("// ")
        if '"' in code:
            return row
        return TOKEN.sub(turn, code) + mark + in_ticks(note, names)

    return "\n".join(line(row) for row in text.split("\n"))


def page(self, word):
    if word in self.members or word in self.definitions:
        return self.new(word)
    return word


Names.page = page


def falling_together(names):
    """Prints the new names that two old names of one file share, or that stand in that file already."""
    for path in files("lemmas") + files("walks"):
        text = open(path).read()
        kept = foreign(text)
        seen = collections.defaultdict(set)
        turned = respell_walk if path.endswith("/Proof.antt") else respell_lemmas
        new = turned(text, names)
        for old_row, new_row in zip(text.split("\n"), new.split("\n")):
            if re.match(r"\s*(?:pub )?use [^{]*$", old_row):
                continue
            old_row, new_row = COMMENT.sub("", old_row), COMMENT.sub("", new_row)
            old_words = [m[2] for m in TOKEN.finditer(old_row)]
            new_words = [m[2] for m in TOKEN.finditer(new_row)]
            for a, b in zip(old_words, new_words):
                seen[b].add(a)
        for b, olds in seen.items():
            if len(olds) > 1:
                print(f"{path}: {b} <- {sorted(olds)}")


def main():
    check = "--check" in sys.argv
    os.chdir([a for a in sys.argv[1:] if not a.startswith("--")][0])
    CRATES.update(os.listdir("crates"))
    names = Names()
    if check:
        falling_together(names)
        return
    for path in files("lemmas"):
        rewrite(path, respell_lemmas, names)
    for path in files("walks"):
        rewrite(path, respell_walk, names)
    for path in glob.glob("crates/*/src/**/*.rt", recursive=True) + glob.glob("crates/*/must-fail/*.edit"):
        rewrite(path, respell_source, names)
    for path in ["README.md"] + glob.glob("docs/*.md") + glob.glob("docs/changes/*.md"):
        rewrite(path, in_ticks, names)


def rewrite(path, turn, names):
    text = open(path).read()
    new = turn(text, names)
    if new != text:
        with open(path, "w") as out:
            out.write(new)


if __name__ == "__main__":
    main()
