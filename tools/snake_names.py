#!/usr/bin/env python3
"""Spells the definitions and lemmas of this repository in snake case.

usage: tools/snake_names.py [ROOT]

Every name that a file of specs/ or proofs/ declares and that has a hyphen or a capital inside, as tokenLen or value-more, becomes token_len and
value_more, wherever it is cited: in .antt files, in clauses and `ghost use` lines of .rt files, and in backticks in comments and pages. Types, modules,
functions of src/, strings, inputs and outputs keep their names. In a function's proof a name behind a dot stays, but behind a path that begins with
Rattle: it may be a label of a goal. Where two names would fall together in a file, nothing is written and the names are listed: OTHER has those that got another name.
"""
import os
import re
import sys

ROOT = sys.argv[1] if len(sys.argv) > 1 else os.path.join(os.path.dirname(os.path.abspath(__file__)), "..")
# Names that would meet another one, or say an old word of the library.
OTHER = {
    "answer-of": "answer_of_law",
    "check-text": "check_text_law",
    "format-text": "format_text_law",
    "affix-text": "affix_text_law",
    "base-minimum": "base_minimum_law",
    "base-symbol": "base_symbol_law",
    "belowOne": "under_one",
    "clause-rows": "clause_rows_law",
    "fraction-digits": "fraction_digits_law",
    "getD-sets-past": "get_or_sets_past",
    "getD-stretch": "get_or_stretch",
    "headRows": "rows_of_head",
    "held-clauses": "held_clauses_law",
    "held-ranges": "held_ranges_law",
    "held-relations": "held_relations_law",
    "held-rules": "held_rules_law",
    "in-range": "in_range_law",
    "in-turn": "in_turn_law",
    "integer-digits": "integer_digits_law",
    "is-bare": "is_bare_law",
    "is-mark": "mark_is",
    "is-minimum": "is_minimum_law",
    "is-pack": "pack_is",
    "is-scalar": "scalar_is",
    "keyword-number": "keyword_number_law",
    "kind-rank": "kind_rank_law",
    "kind-with": "kind_with_law",
    "many-marks": "many_marks_law",
    "many-places": "many_places_law",
    "mark-byte": "mark_byte_law",
    "name-row": "name_row_law",
    "no-semi": "no_semi_law",
    "number-row": "number_row_law",
    "pack-row": "pack_row_law",
    "pack-rows": "pack_rows_law",
    "pattern-row": "pattern_row_law",
    "range-rows": "range_rows_law",
    "relation-rows": "relation_rows_law",
    "rule-rows": "rule_rows_law",
    "rules-rows": "rules_rows_law",
    "segment-rule": "segment_rule_law",
    "spot-rank": "spot_rank_law",
    "stop-after": "stop_after_law",
    "upper-row": "upper_row_law",
    "value-from": "value_from_law",
    "whole-digits": "whole_digits_law",
}
NAME = r'[^\s(){}.;,@"«»`:]+'
TOKEN = re.compile(rf'(?P<string>"(?:[^"\\\n]|\\.)*")|(?P<path>\bRattle(?:\.{NAME})+)|(?P<dotted>\.{NAME})|(?P<name>{NAME})')
DECLARED = re.compile(r"(?m)^ *(?:(?:abbrev|unfoldable|private|pub) )*([^\s(){}.:,;@\"]+)(?: \{[^{}\n]*\})* :(?= |$)")
LENT = re.compile(r"(?m)^ *use (?!Rattle\.(?!std\b))[^{\n]*\{([^}\n]*)\}$")
ALIAS = re.compile(r"(?m)^ *use Rattle[^{\n]* as (\S+)$")


def snake(name):
    return OTHER.get(name) or re.sub(r"(?<=[a-z0-9])[A-Z]", lambda m: "_" + m[0].lower(), name).replace("-", "_")


def files(root, ends):
    for folder, dirs, names in os.walk(root):
        dirs[:] = sorted(d for d in dirs if d not in ("out", ".git", "target", "unfinished"))
        for f in sorted(names):
            if f.endswith(ends):
                yield os.path.join(folder, f)


def read(path):
    with open(path, encoding="utf-8") as f:
        return f.read()


def of_function(path):
    """Whether a file is part of one function's proof, whose names are goals."""
    folder, name = os.path.split(path)
    return os.path.basename(folder) != "proofs" and name in ("Proof.antt", "Answers.antt", "Invariants.antt")


def declared(root):
    """The names that change; and those that have their spelling already, by the older one."""
    names = {"permilleMark": "permille_mark", "keywordNamed": "keyword_named"}
    for p in files(os.path.join(root, "crates"), ".antt"):
        if of_function(p):
            continue
        t = read(p)
        for it in DECLARED.finditer(t):
            n = it[1]
            if re.match(r"[a-z]", n) and re.search(r"[A-Z-]", n) and "→" not in n and "◌" not in n:
                names[n] = snake(n)
    return names


def cite(text, names, aliases=(), dotted=False):
    def one(m):
        if m["string"]:
            return m[0]
        if m["dotted"] and aliases and re.search(r"(?:^|[\s(){};,])(%s)$" % "|".join(map(re.escape, aliases)), m.string[: m.start()]):
            return "." + names.get(m[0][1:], m[0][1:])
        if m["path"]:
            head, _, last = m[0].rpartition(".")
            return head + "." + names.get(last, last)
        if m["dotted"]:
            return "." + names.get(m[0][1:], m[0][1:]) if dotted else m[0]
        return names.get(m[0], m[0])

    return TOKEN.sub(one, text)


def ticks(text, names):
    """A comment or a page: names in backticks, and words with a capital inside."""
    text = re.sub(r"`[^`\n]+`", lambda m: cite(m[0], names), text)
    return re.sub(r"(?<![\w:/.-])[a-z]+(?:[A-Z][a-z0-9]*)+(?![\w/.-])", lambda m: names.get(m[0], m[0]), text)


def known(root):
    found = set()
    for p in files(os.path.join(root, "crates"), ".antt"):
        found.update(it[1] for it in DECLARED.finditer(read(p)))
    return found


class Older(dict):
    """The names in comments and pages: those that change, and those of which a declared name is the new spelling."""

    def __init__(self, names, found):
        super().__init__(names)
        self.found = found

    def get(self, name, other=None):
        if name not in self and re.fullmatch(r"[a-z][A-Za-z0-9'-]*", name) and re.search("[A-Z-]", name) and snake(name) in self.found:
            return snake(name)
        return super().get(name, other)


def turned(path, text, names, older):
    comment = "--" if path.endswith(".antt") else "//"
    lines, aliases = [], ALIAS.findall(text)
    # A name that the file has from a library stays.
    lent = {n.strip().split(" as ")[-1] for m in LENT.finditer(text) for n in m[1].split(",")}
    names = {n: new for n, new in names.items() if n not in lent}
    # A field of a record of the repository's own; in an answer the name behind a dot may be a label.
    dotted = path.endswith(".antt") and not of_function(path)
    for line in text.split("\n"):
        code, rest = line, ""
        at = re.search(rf"(?:^|\s){comment}(?:\s|$)", line)
        if at:
            code, rest = line[: at.start()], line[at.start() :]
        lines.append(cite(code, names, aliases, dotted) + ticks(rest, older))
    return "\n".join(lines)


def tokens(text):
    text = re.sub(r"(?m)(?:^|\s)(?:--|//)(?:\s.*)?$", "", text)
    found = set()
    for m in TOKEN.finditer(text):
        if m["name"]:
            found.add(m[0])
        elif m["path"]:
            found.add(m[0].rpartition(".")[2])
    return found


def main():
    names = declared(ROOT)
    older = Older(names, known(ROOT))
    out, clash = {}, []
    for p in files(os.path.join(ROOT, "crates"), (".antt", ".rt")):
        text = read(p)
        if p.endswith(".antt"):
            seen = {}
            for n in sorted(tokens(text)):
                new = names.get(n, n)
                if new in seen:
                    clash.append((os.path.relpath(p, ROOT), seen[new], n))
                seen[new] = n
        out[p] = turned(p, text, names, older)
        if out[p] == text:
            del out[p]
    if clash:
        for it in clash:
            print("clash: %s: %s and %s" % it)
        raise SystemExit(1)
    for p in files(ROOT, ".md"):
        text = read(p)
        new = ticks(text, older)
        if new != text:
            out[p] = new
    for p, text in out.items():
        with open(p, "w", encoding="utf-8") as f:
            f.write(text)
    print(f"{len(names)} names, {len(out)} files")


main()
