#!/usr/bin/env python3
"""Spells the repository's own definitions and laws as today's Rattle spells its own: words in snake case, a dash only between two names.

usage: tools/respell.py        at the top of a checkout that the kit's port.py has just turned; run once, by the port to that Rattle

What turns: names that specs/ and proofs/ declare (`sumOver` to `sum_over`, `antiV-assoc` to `anti_v_assoc`), wherever antt, a clause, a comment, an edit that
must fail or a page has them. What stays: names of src/ and of C, strings, types and modules, `B` and `G` of the documents, inputs and outputs.
A dash stays in a law's name where both words beside it are names that its file sees (`take-map`, `length-indices`); else it becomes `_` (`all_is`).
It stops, and writes nothing, where two names of one file would fall together, or where a name of the kit would turn.
"""

import os
import re
import subprocess
import sys

WORD = re.compile(r"[^\s(){}.;,@\"«»]+")
QUIET = re.compile(r'"(?:[^"\\\n]|\\.)*"|(?<![^\s(){}.;,@"«»])--[^\n]*', re.S)
RUST_QUIET = re.compile(r'"(?:[^"\\]|\\.)*"|//[^\n]*', re.S)
CAMEL = re.compile(r"(?<=[a-z0-9₀-₉])(?=[A-Z])")
HEAD = re.compile(r"^[ \t]*((?:(?:pub|unfoldable|abbrev|data|record) +)*)([^\s(){}.,;:λ\[\]∷]+)(?=[ \t]*(?:[({][^\n]*)?:[ \n])", re.M)
OPERATORS = {"append", "cons", "nil", "zero", "suc", "add", "mul", "sub", "le", "lt", "true", "false", "map", "length"}
OLD_WORDS = {"getD": "get_or", "flatMap": "flat_map"}
# laws and fields that would fall together with a definition
APART = {
    "by_number": "by_number_lem",
    "centre-at": "centre_at_lem",
    "centre-missing": "centre_missing_lem",
    "flat-map": "flat_map-map",
    "index-pairs": "index_pairs_lem",
    "leaf-cells": "leaf_cells_lem",
    "node-cells": "node_cells_lem",
    "pairs-at": "pairs_at_lem",
    "spans-at": "spans_at_lem",
    "start_cell": "start_cell_lem",
    "too_large": "is_too_large",
}


def files(root, endings):
    for folder, dirs, names in os.walk(root):
        dirs[:] = sorted(d for d in dirs if d not in ("out", ".git", "target"))
        for name in sorted(names):
            if name.endswith(endings):
                yield os.path.join(folder, name)


def read(path):
    with open(path, encoding="utf-8") as f:
        return f.read()


def own_file(path):
    """A file of definitions or laws, and not the proof of one function."""
    return path.endswith(".antt") and os.path.basename(path) not in ("Proof.antt", "Invariants.antt", "Answers.antt", "Lib.antt")


def code_of(text):
    return QUIET.sub(" ", text)


def snake(part):
    if part in OLD_WORDS:
        return OLD_WORDS[part]
    return CAMEL.sub("_", part).lower() if part[:1].islower() else part


def imported(code):
    """The names that a file's `use` lines bring in, with the path of each."""
    for path, names in re.findall(r"^\s*(?:pub )?use ([^\s{}]+)\.\{([^}]*)\}", code, re.M):
        for name in names.split(","):
            yield path, name.strip().split(" as ")[-1]


def declared(code):
    """The names that a file declares, each with the words before it."""
    for words, name in HEAD.findall(code):
        if name not in ("use", "module", "where", "let", "pub", "λ"):
            yield words, name


def fields(code):
    """The fields that a file's records declare."""
    depth = None
    for line in code.splitlines():
        indent = len(line) - len(line.lstrip())
        if re.match(r"\s*(pub +)?record ", line):
            depth = indent
        elif depth is not None and line.strip() and indent <= depth:
            depth = None
        elif depth is not None:
            yield from (name for _, name in declared(line))


def table_of(root):
    """Each own name that turns, with its new spelling; the fields among them; and what would fall together."""
    table, own_fields, clash = {}, set(), []
    texts = {path: code_of(read(path)) for path in files(os.path.join(root, "crates"), (".antt",))}
    for path, code in texts.items():
        if own_file(path):
            own_fields |= set(fields(code))
    for path, code in texts.items():
        if not own_file(path):
            continue
        seen = {name for _, name in imported(code)} | {name for words, name in declared(code) if re.search("unfoldable|abbrev|data|record", words) or not words}
        seen = OPERATORS | {snake(name) for name in seen if "-" not in name}
        for _, name in declared(code):
            parts = [snake(part) for part in name.replace("·", "-").split("-")]
            new, before = parts[0], parts[0]
            for part in parts[1:]:
                kept = part in seen and before in seen and name not in own_fields
                new += ("-" if kept else "_") + part
                before = part if kept else before + "_" + part
            table.setdefault(name, APART.get(name, new))
    for code in texts.values():
        for word in WORD.findall(code):
            if word not in table and word[:1].islower() and CAMEL.search(word):
                table[word] = "-".join(snake(part) for part in word.split("-"))
    table = {old: new for old, new in table.items() if old != new}
    for path, code in texts.items():
        names = {name for _, name in imported(code)} | {name for _, name in declared(code)}
        turned = {}
        for name in names:
            turned.setdefault(table.get(name, name), set()).add(name)
        clash += [f"{path}: {sorted(olds)} would all be {new}" for new, olds in turned.items() if len(olds) > 1]
        clash += [f"{path}: {name} of {where} is the kit's" for where, name in imported(code) if name in table and not where.startswith("Rattle.")]
    return table, own_fields, clash


def turn_words(text, table, own_fields):
    def one(m):
        word, at = m.group(0), m.start()
        if word not in table:
            return word
        before = text[:at]
        if "-" in word and word not in own_fields and before.endswith(".") and not re.search(r"[A-Z]\w*\.$", before):
            return word  # a field that Rattle makes
        return table[word]

    return WORD.sub(one, text)


def turn_prose(text, table):
    """Names between backquotes, and bare words that can be nothing else."""

    def one(m):
        return re.sub(r"[^\s(){}.;,@\"«»`]+", lambda w: table.get(w.group(0), w.group(0)), m.group(0))

    text = re.sub(r"`[^`\n]*`", one, text)
    return re.sub(r"(?<![\w`./-])[a-z][\w-]*[a-z0-9][A-Z]\w*(?![\w`/-])", lambda w: table.get(w.group(0), w.group(0)), text)


def turn_file(path, table, own_fields):
    text = read(path)
    if path.endswith(".md"):
        new = turn_prose(text, table)
    elif path.endswith(".edit"):
        new = "".join(turn_words(line, table, own_fields) if re.match(r"(old|new): ", line) and "specs/" in text else line for line in text.splitlines(keepends=True))
    else:
        quiet = RUST_QUIET if path.endswith(".rt") else QUIET
        new, at = "", 0
        for m in quiet.finditer(text):
            said = m.group(0)
            new += turn_words(text[at : m.start()], table, own_fields) + (said if said.startswith('"') else turn_prose(said, table))
            at = m.end()
        new += turn_words(text[at:], table, own_fields)
    if new != text:
        with open(path, "w", encoding="utf-8") as f:
            f.write(new)
    return new != text


def main():
    root = subprocess.run(["git", "rev-parse", "--show-toplevel"], capture_output=True, text=True, check=True).stdout.strip()
    table, own_fields, clash = table_of(root)
    if clash:
        print("\n".join(clash))
        return 1
    # `λ` and dashes of code are no names: in src/ only words in camel case turn
    in_code = {old: new for old, new in table.items() if CAMEL.search(old) and "-" not in old}
    turned = 0
    for path in files(os.path.join(root, "crates"), (".antt", ".edit")):
        turned += turn_file(path, table, own_fields)
    for path in files(os.path.join(root, "crates"), (".rt",)):
        turned += turn_file(path, in_code, own_fields)
    for name in sorted(os.listdir(os.path.join(root, "crates"))):
        subprocess.run(["rt", "fmt"], cwd=os.path.join(root, "crates", name), stdout=subprocess.DEVNULL, stderr=subprocess.DEVNULL)
    print(f"{len(table)} names, {turned} files")
    return 0


if __name__ == "__main__":
    sys.exit(main())
