#!/usr/bin/env python3
"""Brings the repository's own definitions and lemmas to one spelling: words in snake case, types and modules in camel case.

usage: names.py [--table] [TOP]      rewrites crates/*/{src,specs,proofs,must-fail} and the code spans of the pages below TOP, or prints the table

A name is the repository's own if a file of specs/, or one of proofs/ that several proofs share, declares it. `asGood` becomes `as_good`, `side-back`
`side_back`, and a name that begins with a type keeps its capital. Functions of src/, exported names, strings, inputs and outputs stay: in src/ only
clauses and `ghost` items name definitions. What the toolchain makes of a function (`tie.Need-..`, fields of a goal's record) stays too.
A name that a library has under the same spelling stays where the file takes it from the library.
"""
import collections
import os
import re
import sys

WORD = re.compile(r"[^\s(){}.;,@\"«»`]+")
SIGNATURE = re.compile(r"^\s*(?:let |where )?(?:(?:abbrev|unfoldable|pub|data|record|ruleset|module) )*((?:[^\s(){}.,;:λ@\"]+ )+?|[^\s(){}.,;:λ@\"]+ ?)(?:\{[^}]*\} ?|\([^)]*\) ?)*:(?!=)\s")
LOCAL = re.compile(r"(?:let|where) ([^\s(){}.,;:λ@\"]+)(?= [^=]*?[:=])")
QUIET = re.compile(r'"(?:[^"\\\n]|\\.)*"|--[^\n]*')
RUST_QUIET = re.compile(r'b?"(?:[^"\\\n]|\\.)*"|//[^\n]*')
SPAN = re.compile(r"`[^`\n]+`")
# names that would fall together with another: a lemma with its definition, a definition with a function of src/
APART = {
    "last-price": "last_price_lem",
    "last-quantity": "last_quantity_lem",
    "levels-in": "levels_in_lem",
    "on-ask": "on_ask_lem",
    "on-bid": "on_bid_lem",
    "upTo-x": "up_to_x_lem",
    "is-nan": "is_nan_lem",
    "depthNumbers": "depth_as_numbers",
    "eventNumbers": "event_as_numbers",
    "lookNumbers": "look_as_numbers",
    "quoteNumbers": "quote_as_numbers",
    "sideNumber": "number_of_side",
    "slipOf": "slip_for",
    "tagOf": "tag_for",
    "tradeOf": "rule_trade",
}
# names of proofs that no shared file declares: aliases, and lemmas beside one function's proof
BESIDE = "carried-out own-place before-end entry-is far-is goal-is h-is is-nan near-is statistics-is to-door to-form".split()


def files(top, *ends):
    for folder, dirs, names in os.walk(top):
        dirs[:] = sorted(d for d in dirs if d not in ("out", ".git", "target", "tools"))
        for n in sorted(names):
            if n.endswith(ends):
                yield os.path.join(folder, n)


def read(path):
    with open(path, encoding="utf-8") as f:
        return f.read()


def turned(name):
    if name[0].islower():
        name = re.sub(r"(?<=[a-z0-9])(?=[A-Z])", "_", name)
        name = re.sub(r"[A-Z]", lambda m: m[0].lower(), name)
    return name.replace("-", "_")


def own_part(path):
    """'shared' for specs/ and for proofs/*.antt, 'function' for a proof of one function."""
    parts = path.split(os.sep)
    if "specs" in parts:
        return "shared"
    return "shared" if parts[-2] == "proofs" else "function"


def plain(text):
    return QUIET.sub(lambda m: " " * len(m[0]), text)


def declared(text):
    for line in plain(text).splitlines():
        m = SIGNATURE.match(line)
        if m and not re.match(r"\s*use ", line):
            for w in m[1].split():
                yield w
        for m in re.finditer(r"\b(?:let|where) ([^\s(){}.,;:λ@\"]+)", line):
            yield m[1]


def imported(text):
    """What a file takes from libraries, and not from this repository."""
    for m in re.finditer(r"^(?:pub )?(?:ghost )?use ([^\s{]+?)(?:\.?\{([^}]*)\})?;?\s*$", text, re.M):
        path, names = m[1], m[2]
        mine = path.startswith("Rattle.") and not path.startswith("Rattle.std")
        if not mine and names:
            for n in names.split(","):
                yield n.strip().split(" as ")[0]


def table(top):
    shared, foreign = set(), set()
    for p in files(os.path.join(top, "crates"), ".antt"):
        t = read(p)
        names = set(declared(t))
        foreign |= set(imported(t))
        if own_part(p) == "shared":
            shared |= names
    for p in files(os.path.join(top, "crates"), ".rt"):
        foreign |= set(imported(read(p)))
    rows = {}
    for n in sorted(shared | set(BESIDE)):
        if re.match(r"[^\W\d]", n) and turned(n) != n:
            rows[n] = APART.get(n, turned(n))
    return rows, foreign, shared | set(rows.values())


def turn_words(text, rows, skip, made):
    def one(m):
        w = m[0]
        if w not in rows or w in skip:
            return w
        before = text[: m.start()]
        if w in made or (re.search(r"\b(?:tie|goal)\.$", before)):
            return w
        return rows[w]

    return WORD.sub(one, text)


def outside(pattern, text, turn, comment):
    out, last = [], 0
    for m in pattern.finditer(text):
        out.append(turn(text[last : m.start()]))
        out.append(comment(m[0]))
        last = m.end()
    out.append(turn(text[last:]))
    return "".join(out)


def main(argv):
    only = "--table" in argv
    argv = [a for a in argv if a != "--table"]
    top = argv[0] if argv else "."
    rows, _, mine = table(top)
    if only:
        for a, b in rows.items():
            print(a, b, sep="\t")
        return 0

    def of_page(w):
        """A page or an edit, which no earlier script turned, may have the older spelling of a name that was turned before."""
        return rows[w] if w in rows else turned(w) if re.match(r"[^\W\d]", w) and turned(w) in mine else w

    def spans(s, skip):
        return SPAN.sub(lambda m: m[0] if "/" in m[0] else WORD.sub(lambda w: w[0] if w[0] in skip else of_page(w[0]), m[0]), s)

    for p in files(os.path.join(top, "crates"), ".antt", ".rt", ".edit"):
        t = read(p)
        if p.endswith(".edit"):
            new = re.sub(r"(?m)^(?:old|new): .*$", lambda m: WORD.sub(lambda w: of_page(w[0]), m[0]), t)
            if new != t:
                with open(p, "w", encoding="utf-8") as f:
                    f.write(new)
            continue
        skip = set(imported(t)) & set(rows)
        made = set()
        if p.endswith(".antt") and own_part(p) == "function":
            made = set(re.findall(r"^([^\s:]+) : (?:tie|goal)\.", t, re.M))
            made |= set(re.findall(r"\bc(?:\.before)*\.([^\s.(){}]+)", t))
        quiet = RUST_QUIET if p.endswith(".rt") else QUIET
        new = outside(quiet, t, lambda s: turn_words(s, rows, skip, made), lambda s: spans(s, skip))
        if new != t:
            with open(p, "w", encoding="utf-8") as f:
                f.write(new)
    for p in files(top, ".md"):
        t = read(p)
        new = spans(t, set())
        if new != t:
            with open(p, "w", encoding="utf-8") as f:
                f.write(new)
    return 0


if __name__ == "__main__":
    raise SystemExit(main(sys.argv[1:]))
