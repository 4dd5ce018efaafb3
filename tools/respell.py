#!/usr/bin/env python3
"""Respells the repository's own definitions and lemmas: words in snake case, as `premisesOf` and `or-digit` to `premises_of` and `or_digit`.

usage: respell.py [--list]     at the top of the repository, after the port's own script; once

A name turns where the repository declares it, in specs/ and proofs/, in clauses and in ghost imports. What turns to what is read off the declarations; the few that would fall
together with another name have a spelling of their own in OTHERWISE. Functions of src/, exported names, strings, inputs and outputs keep their names, and so do names that the
toolchain makes for a function's goals. --list prints the table and writes nothing.
"""

import os
import re
import sys

WORD = re.compile(r'[^\s(){}.;,@"«»]+')
SIGNATURE = re.compile(r"^\s*(?:pattern |unfoldable |abbrev |pub |axiom )*((?:[^\s(){}.;,@\"«»:]+\s+)*[^\s(){}.;,@\"«»:]+)(?:\s*\{[^{}]*\})?\s*:(?=\s|$)")
BOUND = re.compile(r"(?:let|λ)\s+([^\s(){}.;,@\"«»:=]+)|[({]([^(){}:=;,\"]+?) : ")
NAMED = re.compile(r"^\s*(?:pub )*use ([\w.·']*[\w·'])(?:\.\{([^}]*)\}| as (\S+))?")
GHOST_USE = re.compile(r"^ghost use ([\w.·']+)\.\{([^}]*)\};", re.M)
CLAUSE = re.compile(r"(?:requires|ensures)\s*\*?\s*(?:\w+\s*)?\{|ghost\s*(?:\w+\s*(?::\s*(?:(?:owns|lends)\s*)?|=\s*))?\{")

# Names that would fall together with another one in some file.
LEMMAS = """
    value-of level-at premise-fault is-connective value-suits input-refusal sheets-refusal first-unfit why-in on-trail answer-of inference-shaped learn-shaped level-of pair-shaped
    term-shaped is-select is-store head-of unit-here row-of next-line no-argument others-fit prop-fits in-conflict found-at slot-put input-added
"""
OTHERWISE = {n: n.replace("-", "_") + "_lem" for n in LEMMAS.split()} | {
    "bit-and": "bit_at_and",
    "bit-or": "bit_at_or",
    "at_base": "at_base_lem",
    "step_added": "step_added_lem",
    "read_back": "read_back_lem",
    "Good-after": "GoodAfter",
    "Seen-a": "SeenA",
    "Seen-b": "SeenB",
    "Seen-c": "SeenC",
    "Seen-d": "SeenD",
}


def snake(name):
    name = re.sub(r"(?<=[a-z0-9])([A-Z])(?=[a-z0-9]|$|[-_'])", lambda m: "_" + m.group(1).lower(), name) if not name[:1].isupper() else name
    return name.replace("-", "_")


def wants(name):
    if not any(c.isalnum() for c in name) or not (name[0].isalpha() or name[0] in "≤<≡"):
        return False
    return "-" in name.strip("-") or bool(re.match(r"[^A-Z]*[a-z0-9][A-Z]", name) and not name[0].isupper())


def files(kind):
    for folder, dirs, names in os.walk("crates"):
        dirs[:] = sorted(d for d in dirs if d != "out")
        for n in sorted(names):
            if n.endswith(kind):
                yield os.path.join(folder, n)


def read(path):
    with open(path, encoding="utf-8") as f:
        return f.read()


def kit_module(module, crates):
    parts = module.split(".")
    return not (parts[0] == "Rattle" and len(parts) > 1 and parts[1] in crates)


def imported(text, crates):
    """The names that a file takes from the kit."""
    out = set()
    for line in text.split("\n"):
        m = NAMED.match(line)
        if m and m.group(2) and kit_module(m.group(1), crates):
            for item in m.group(2).split(","):
                out.update(w for w in item.split() if w != "as")
    return out


def code_parts(text):
    """Pieces of an antt text: (is_code, piece)."""
    out, at = [], 0
    for m in re.finditer(r"(?m)(?:^|(?<=\s))--[^\n]*", text):
        out.append((True, text[at : m.start()]))
        out.append((False, m.group(0)))
        at = m.end()
    out.append((True, text[at:]))
    return out


def declared(text):
    names = set()
    for ok, piece in code_parts(text):
        if not ok:
            continue
        for line in piece.split("\n"):
            if re.match(r"\s*(use|pub use|mod|pub mod) ", line):
                continue
            m = SIGNATURE.match(line)
            if m:
                names.update(n for n in m.group(1).split() if n not in ("let", "module", "where", "record"))
            for b in BOUND.finditer(line):
                names.update((b.group(1) or b.group(2) or "").split())
    return names


def fields(text):
    """The fields of the records that a text declares."""
    out, depth = set(), None
    for line in text.split("\n"):
        indent = len(line) - len(line.lstrip())
        if depth is not None and line.strip() and indent <= depth:
            depth = None
        m = re.match(r"(\s*)(?:pub |abbrev )*record (?!\{)[^=]*where\s*$", line)
        if m:
            depth = len(m.group(1))
        elif depth is not None:
            m = SIGNATURE.match(line)
            if m:
                out.update(m.group(1).split())
    return out


def table(crates):
    names = set()
    for p in files(".antt"):
        t = read(p)
        names |= {n for n in declared(t) if n not in imported(t, crates)}
    return {n: OTHERWISE.get(n, snake(n)) for n in sorted(names) if n in OTHERWISE or (wants(n) and snake(n) != n)}


def turn_antt(text, names, crates, made):
    """`made`: the names that may follow a dot where the toolchain makes names too, or None."""
    keep = imported(text, crates)
    out = []
    for ok, text_piece in code_parts(text):
        if ok:
            lines = []
            for line in re.split(r"(?<=\n)", text_piece):
                m = NAMED.match(line)
                if m and kit_module(m.group(1), crates):
                    lines.append(line)
                    continue
                text_line = line
                lines.append(WORD.sub(lambda m, t=text_line: one(m, t, names, keep, made), line))
            out.append("".join(lines))
        else:
            out.append(re.sub(r"`([^`]*)`", lambda m: "`" + WORD.sub(lambda k: names.get(k.group(0), k.group(0)), m.group(1)) + "`", text_piece))
    return "".join(out)


def one(m, line, names, keep, made):
    w = m.group(0)
    if w not in names or w in keep:
        return w
    before = line[: m.start()]
    if re.search(r"(?<![\w'-])tie\.$", before):
        return w
    if made is not None and before.endswith("."):
        return snake(w) if w in made else w
    return names[w]


def blocks(text):
    """Where the clauses of a source begin and end."""
    for m in CLAUSE.finditer(text):
        depth, i = 1, m.end()
        while depth and i < len(text):
            depth += {"{": 1, "}": -1}.get(text[i], 0)
            i += 1
        yield m.end(), i - 1


def turn_rt(text, names, crates):
    def ghost_use(m):
        if kit_module(m.group(1), crates):
            return m.group(0)
        return WORD.sub(lambda k: names.get(k.group(0), k.group(0)), m.group(0))

    kit = set()
    for m in GHOST_USE.finditer(text):
        if kit_module(m.group(1), crates):
            kit.update(w.strip() for w in m.group(2).split(","))
    out, at = [], 0
    text = GHOST_USE.sub(ghost_use, text)
    for a, b in blocks(text):
        if a < at:
            continue
        out.append(text[at:a])
        out.append(WORD.sub(lambda k: k.group(0) if k.group(0) in kit else names.get(k.group(0), k.group(0)), text[a:b]))
        at = b
    out.append(text[at:])
    return "".join(out)


def together(path, before, after):
    """Distinct words of a file that are one word now."""
    was, now = {}, []
    for a, b in zip(WORD.findall(before), WORD.findall(after)):
        if was.setdefault(b, a) != a:
            now.append((path, was[b], a, b))
    return now


def main():
    crates = {d for d in os.listdir("crates")}
    names = table(crates)
    if "--list" in sys.argv:
        for a, b in names.items():
            print(f"{a}\t{b}")
    every = set().union(*(fields(read(p)) for p in files(".antt")))
    clashes = set()
    for p in list(files(".antt")) + list(files(".rt")):
        t = read(p)
        n = turn_antt(t, names, crates, every if p.endswith("/Proof.antt") else None) if p.endswith(".antt") else turn_rt(t, names, crates)
        for path, a, b, c in together(p, "\n".join(x for ok, x in code_parts(t) if ok) if p.endswith(".antt") else t, "\n".join(x for ok, x in code_parts(n) if ok) if p.endswith(".antt") else n):
            clashes.add((path, a, b, c))
        if "--list" not in sys.argv and n != t:
            with open(p, "w", encoding="utf-8") as f:
                f.write(n)
    for c in sorted(clashes):
        print("look: in %s, `%s` and `%s` are `%s`" % c)


if __name__ == "__main__":
    main()
