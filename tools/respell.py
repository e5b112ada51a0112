#!/usr/bin/env python3
"""Brings the names of definitions and lemmas to the spelling of today's Rattle: words in snake case, a dash only between two names.

usage: tools/respell.py [--show]      at the top of the repository, once, after the kit's own port.py

It renames what the files of specs/ and proofs/ declare: unitRefusal to unit_refusal, first-bad-is-first to first_bad_is_first, and patched-length, which
is the word `patched` and the word `length`, keeps its dash. Names that come from the library keep theirs. It rewrites the .antt and .rt files of crates/,
the edits of must-fail/ and long/, and in the pages what stands between backticks. --show prints the table and what falls together, and writes nothing.
"""
import collections, os, re, sys

WORD = re.compile(r"(?<![\w'◌₀-₉-])[A-Za-z_◌][\w'◌₀-₉]*(?:-[\w'◌₀-₉]+)*")
NAME = r"[a-z_][\w'₀-₉]*(?:-[\w'₀-₉]+)*"
HEAD = re.compile(r"^\s*(?:(?:abbrev|unfoldable|pub|private|inline)\s+)*(" + NAME + r")\s*(?:\{[^}]*\}|\([^)]*\)|[\w' ])*:(?![=:])", re.M)
ROW = re.compile(r"^(\s*)(" + NAME + r") : (?:tie|goal)\.(?:Need|[a-z])", re.M)
CTOR = re.compile(r"^\s*\|?\s*(" + NAME + r") :", re.M)
USE = re.compile(r"use\s+([\w.◌'·+-]+?)(?:\.\{([^}]*)\}|\s+as\s+([\w-]+))", re.S)
FIXED = {"invariant-loop", "decreases-loop"}
DEF = re.compile(r"^\s*(?:abbrev|unfoldable)\s+(?:pub\s+)?(" + NAME + r")\s*:", re.M)
# lemmas in snake case already, beside a word that comes to be spelled alike
LEMMAS = {"given_back": "given_back_lem", "valueBy": "value_by"}


def files(*ends):
    for top in ("crates", "long"):
        for folder, dirs, names in os.walk(top):
            dirs[:] = sorted(d for d in dirs if d not in ("out", "target"))
            for n in sorted(names):
                if n.endswith(ends):
                    yield os.path.join(folder, n)


def read(p):
    with open(p, encoding="utf-8") as f:
        return f.read()


def bare(p, t):
    return re.sub(r"--[^\n]*" if p.endswith(".antt") else r"//[^\n]*", "", t)


def snake(part):
    part = re.sub(r"(?<=[a-z0-9₀-₉])([A-Z])", r"_\1", part)
    return re.sub(r"(?<=[A-Z])([A-Z][a-z])", r"_\1", part)


def main(show):
    own = {d for d in os.listdir("crates")}
    declared, outside, tokens, needs = set(), set(), collections.Counter(), set()
    camel_alias = set()
    for p in files(".antt", ".rt"):
        t = bare(p, read(p))
        tokens.update(WORD.findall(t))
        for m in USE.finditer(t):
            inside = m.group(1).startswith("Rattle.") and m.group(1).split(".")[1] in own
            if m.group(3):
                camel_alias.add(m.group(3))
            for n in WORD.findall(m.group(2) or ""):
                (declared if inside else outside).add(n)
        if p.endswith(".antt"):
            if p.endswith("Proof.antt"):
                here = {m.group(2) for m in ROW.finditer(t)}
                here |= {m.group(1) for m in re.finditer(r"^pub (" + NAME + r") : \{M : Type 1\}", t, re.M)}
                needs |= here
                declared |= {n for n in HEAD.findall(t) if n not in here}
            else:
                declared |= set(HEAD.findall(t))
    declared |= camel_alias
    declared -= outside | FIXED | needs
    # the words that a dash may join: those that are declared without one, and the library's that the files name
    words = {n for n in outside if "-" not in n}
    for p in files(".antt"):
        words |= {snake_lower(n) for n in DEF.findall(read(p)) if "-" not in n}

    def respelled(n):
        parts = [snake_lower(p) for p in n.split("-")]
        if len(parts) == 1:
            return parts[0]
        for i in range(1, len(parts)):
            left, right = "_".join(parts[:i]), "_".join(parts[i:])
            if left in words and right in words:
                return left + "-" + right
        return "_".join(parts)

    table = {}
    for n in sorted(declared):
        if re.match(r"[A-Z]", n):
            continue
        new = respelled(n)
        if new != n:
            table[n] = new
    # what falls together: the lemma, which had the dash, gets _lem
    back = collections.defaultdict(list)
    for n, new in table.items():
        back[new].append(n)
    clash = {}
    for new, olds in sorted(back.items()):
        there = [new] if new in tokens_of_antt() and new not in table else []
        if len(olds) + len(there) > 1:
            clash[new] = (olds, there)
    for new, (olds, there) in clash.items():
        plain = [o for o in olds if "-" not in o]
        for o in olds:
            if (plain or there) and "-" in o:
                table[o] = new + "_lem"
    table.update(LEMMAS)
    taken = collections.Counter(table.values())
    if show:
        for n, new in sorted(table.items()):
            print(n, new)
        print("---- fell together")
        for new, v in clash.items():
            print(new, v, [table[o] for o in v[0]])
        print("---- twice", [n for n, c in taken.items() if c > 1])
        return
    assert not [n for n, c in taken.items() if c > 1]
    for p in files(".antt", ".rt", ".edit", ".wrong", ".txt"):
        t = read(p)
        new = WORD.sub(lambda m: turned(m, t, table, p), t)
        if new != t:
            with open(p, "w", encoding="utf-8") as f:
                f.write(new)
    for folder in (".", "docs"):
        for n in sorted(os.listdir(folder)):
            if n.endswith(".md"):
                p = os.path.join(folder, n)
                t = read(p)
                new = re.sub(r"`[^`\n]*`", lambda q: WORD.sub(lambda m: table.get(m.group(0), m.group(0)), q.group(0)), t)
                if new != t:
                    with open(p, "w", encoding="utf-8") as f:
                        f.write(new)


ANTT = None


def tokens_of_antt():
    global ANTT
    if ANTT is None:
        ANTT = set()
        for p in files(".antt"):
            t = USE.sub(" ", bare(p, read(p)))
            ANTT |= {m.group(0) for m in WORD.finditer(t) if t[m.start() - 1 : m.start()] != "."}
    return ANTT


def snake_lower(p):
    if re.match(r"[A-Z]", p):
        return p
    return snake(p).lower() if re.search(r"[A-Z]", p) else p


def turned(m, t, table, p):
    w = m.group(0)
    if w not in table:
        return w
    # a name of two plain words in a comment may be English: only a name of the crates' style is turned there
    line = t[t.rfind("\n", 0, m.start()) + 1 : m.start()]
    comment = ("--" if p.endswith(".antt") else "//") in line
    if comment and "-" in w and not re.search(r"[A-Z]", w) and len(w.split("-")) < 3:
        return w
    # a step of a proof has its function's name
    if p.endswith("Proof.antt") and t[m.start() - 1 : m.start()] == "." and table[w].endswith("_lem"):
        return w
    return table[w]


if __name__ == "__main__":
    if not os.path.isdir("crates"):
        sys.exit("respell: run it at the top of the repository")
    main("--show" in sys.argv[1:])
