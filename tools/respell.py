#!/usr/bin/env python3
"""Brings this repository's own definitions and lemmas to snake case: blockAnswer -> block_answer, cells-none -> cells_none.

usage: python3 tools/respell.py       at the top of the repository, once, right after the kit's port.py

A dash stays where it joins two names, as in abs-add or length-build. Functions of src/, exported C names, strings, inputs and
outputs keep their names. It stops, and writes nothing, where two names would fall together.
"""

import glob
import re
import sys

W = r"[^\s(){}.;,@\"«»\[\]\\`]+"
TOKEN = re.compile(r"«[^»]*»|" + W)
DECLARED = re.compile(r"(\s*)((?:abbrev |unfoldable |pub |private )*)(?:(?:data|record)\s+)?(%s)(?: [^:]*)?\s+:(?:\s|$)" % W)
# Words of the library, and short names of its operations, that a dash may join.
WORDS = set(
    "add sub mul div rem neg le lt eq ne min max length append drop take map set zero one suc true false cond and or not abs pow shl shr build replicate"
    " get_or bits to_z of_z nat_abs pos quot sqrt cos block grid cell every paste reverse fin even odd gcd mod sum T ltb leb eqb z".split()
)
# Names that would fall together with another, and names of an older library word.
BY_HAND = {"written-of": "written_of_lem"}
# Functions of the library beside which a lemma of their name stands.
LIBRARY = {"in_float", "floor_of"}
# Names of fields, or of definitions beside a field of that name.
FIELDS = {"aboveLeft", "notCoded", "rvlcEscape"}
# Words of Rattle's own in proof files.
GENERATED = re.compile(r"(Need|Then|Else|After|Arm|Loop|Test|Start|Own|In|Join|Came|Turn|The|the)-")


def snake(name):
    if name in BY_HAND:
        return BY_HAND[name]
    name = re.sub(r"getD", "get_or", name)
    out = []
    for part in name.split("-"):
        if part[:1].islower():
            part = re.sub(r"(?<=[a-z0-9])([A-Z]+)", lambda m: "_" + m[1].lower(), part)
        out.append(part)
    return "-".join(out)


def read(path):
    with open(path, encoding="utf-8") as it:
        return it.read()


def files(*patterns):
    found = []
    for p in patterns:
        found += [f for f in glob.glob(p, recursive=True) if "/out/" not in f]
    return sorted(found)


def declared(paths):
    names, fields = {}, set()
    for path in paths:
        inside = None
        for line in read(path).split("\n"):
            if line.lstrip().startswith("--") or not line.strip():
                continue
            m = DECLARED.match(line)
            if re.match(r"\s*(abbrev |unfoldable |pub |private )*record\s", line):
                inside = len(line) - len(line.lstrip())
                continue
            indent = len(line) - len(line.lstrip())
            if inside is not None and indent <= inside:
                inside = None
            if m and not re.search(r":\s+(tie|goal)\.(Need-|[a-z])", line):
                names.setdefault(m[3], set()).add(path)
                if inside is not None:
                    fields.add(m[3])
    return names, fields


def main():
    specs = files("crates/*/specs/**/*.antt")
    proofs = files("crates/*/proofs/**/*.antt")
    stated, _ = declared(specs)
    names, fields = declared(specs + proofs)
    vocabulary = WORDS | {snake(n) for n in stated if "-" not in n}

    def turned(name):
        new = snake(name)
        if "-" in new and name not in BY_HAND and not GENERATED.match(new):
            parts = new.split("-")
            if name in stated or not all(p in vocabulary or not re.fullmatch(r"\w+", p) or p[:1].isupper() for p in parts):
                # A part that is an operator or a fact keeps its dash.
                joined = parts[0]
                for a, b in zip(parts, parts[1:]):
                    plain = re.fullmatch(r"[a-z0-9_]+", a) and re.fullmatch(r"[a-z0-9_]+", b)
                    joined += ("_" if plain else "-") + b
                new = joined
        return new

    # A lemma that would have its function's name ends in _lem.
    of_specs = {turned(n) for n in stated}
    table = {}
    for n in names:
        new = turned(n)
        if n not in stated and new in of_specs | LIBRARY and n not in of_specs | LIBRARY or n not in stated and n in {turned(m) for m in stated if m != n}:
            new += "_lem"
        if new != n and not n.startswith("◌"):
            table[n] = new
    # Where names would fall together, the function has the plain one.
    groups = {}
    for n in names:
        groups.setdefault(table.get(n, n), []).append(n)
    for new, those in groups.items():
        camel = [n for n in those if re.search(r"[a-z0-9][A-Z]", n)]
        if len(those) > 1 and len(camel) == 1:
            table.update({n: new + "_lem" for n in those if n not in camel})
    if "--show" in sys.argv:
        for a, b in sorted(table.items()):
            print(a, b)
    bad = 0
    back = {}
    for a, b in table.items():
        back.setdefault(b, []).append(a)
    texts = {f: read(f) for f in specs + proofs + files("crates/*/src/**/*.rt", "crates/*/must-fail/*.edit")}
    tokens = {f: set(TOKEN.findall(t)) for f, t in texts.items()}
    for b, a in back.items():
        if b in names and table.get(b, b) == b:
            a = a + [b]
        if len(a) > 1:
            where = [f for f in texts if len(set(a) & tokens[f]) > 1]
            homes = [sorted(names[x]) for x in a]
            flat = [h for hs in homes for h in hs]
            if where or len(set(flat)) < len(flat):
                print("fall together:", a, "->", b, where[:4])
                bad += 1
    # A word may have the name of a function of src/ or of a field, but of no parameter and nothing else.
    for f in texts:
        for a in (tokens[f] & set(table)) - FIELDS:
            plain = re.findall(r"(?<![.\w])%s(?![\w.'-])" % re.escape(table[a]) + (r"(?=: )" if f.endswith(".rt") else ""), re.sub("(?m)^ *--.*$", "", texts[f]))
            if plain and table[a] not in names and not f.endswith(".edit"):
                print("taken:", f, a, table[a])
                bad += 1
    if bad:
        print(bad, "names to settle")
        return 1
    if "--check" in sys.argv:
        return 0
    for f, text in texts.items():
        foreign = set()
        for m in re.finditer(r"^\s*(?:ghost )?(?:pub )?use ([\w.'+-]+)\.\{([^}]*)\}", text, re.M):
            own = m[1].startswith("Rattle.") and "." in m[1] and not m[1].startswith("Rattle.std.")
            if not own:
                foreign |= {w.strip() for w in m[2].split(",")}
        aliases = {m[1] for m in re.finditer(r"^use \S+ as (\S+?);?$", text, re.M)} - {"tie", "goal"}

        def turn(m):
            t = m[0]
            if t not in table or t in foreign or f.endswith(".rt") and not re.search("[A-Z-]", t):
                return t
            if m.start() and text[m.start() - 1] == ".":
                q = re.search(r"(%s)\.$" % W, text[: m.start()][-200:])
                q = q[1] if q else ""
                if not (q[:1].isupper() or q in aliases or t in fields):
                    return t
            return table[t]

        if f.endswith(".rt"):
            # Strings keep their text.
            new = re.sub(r'"(?:[^"\\\n]|\\.)*"|' + TOKEN.pattern, lambda m: m[0] if m[0].startswith('"') else turn(m), text)
        else:
            new = TOKEN.sub(turn, text)
        if new != text:
            with open(f, "w", encoding="utf-8") as it:
                it.write(new)
    print(len(table), "names respelled")
    return 0


if __name__ == "__main__":
    raise SystemExit(main())
