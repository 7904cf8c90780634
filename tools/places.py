#!/usr/bin/env python3
"""Counts the places of docs/DESIGN-PASS.md in src/ at a commit: tools/places.py [COMMIT]. With --list it prints them."""
import re, subprocess, sys

args = [it for it in sys.argv[1:] if it != "--list"]
commit, shows = (args or ["HEAD"])[0], "--list" in sys.argv


def git(*words):
    return subprocess.run(["git", *words], stdout=subprocess.PIPE, text=True, check=True).stdout


files = [it for it in git("ls-tree", "-r", "--name-only", commit, "crates").split() if re.search(r"/src/.*\.rt$", it)]
texts = {it: git("show", f"{commit}:{it}") for it in files}


def tell(what, found):
    print(f"{len(found):4} {what}")
    if shows:
        for it in found:
            print("       ", it)


def lines(pattern):
    return [f"{f}:{i}: {l.strip()}" for f, t in texts.items() for i, l in enumerate(t.split("\n"), 1) if re.search(pattern, l)]


def enums():
    for f, t in texts.items():
        for m in re.finditer(r"^(?:pub(?:\([a-z]+\))? )?enum (\w+) \{\n(.*?)^\}", t, re.M | re.S):
            yield f, m.group(1), re.findall(r"^    (\w+)", m.group(2), re.M)


NO = {"Refused", "Bad", "OutOfRange", "OutOfLimits", "DepthOutOfRange", "ValueOutOfLimits", "TooShort", "Malformed", "Missing"}
tell("1a enums: a value and a refusal, or none", [f"{f} {n}" for f, n, vs in enums() if NO & {*vs} and not n.endswith("Error") and (len({*vs} - NO) < 2 or n in ("Line", "DerivedMbType"))])
tell("1b a flag, or a number that says nothing, beside a value", lines(r"^    (pub )?(has|has_\w+): bool,|^    pub answer: |^    pub next: usize,|^    pub bad: usize,"))
tell("1c numbers for kinds, flags and refusals (the C interface's are numbers)", lines(r"^(?!.*vaxembro).*\b(ac_pred|ac_pred_flag|method): u32,|Picture\(u32|Macroblock\(u32"))


def bodies():
    for f, t in texts.items():
        for m in re.finditer(r"^( *)(?:pub(?:\([a-z]+\))? )?fn (\w+)", t, re.M):
            i = t.find("\n" + m.group(1) + "{", m.start())
            j = t.find("{\n", m.start())
            nxt = t.find("\n" + m.group(1) + "}", m.start())
            i = i if 0 <= i < nxt else j
            body = re.sub(r"//[^\n]*", "", t[i:nxt])
            names, out = {}, []
            for x in re.findall(r"\w+|[^\s\w]", body):
                if re.match(r"[A-Za-z_]", x) and x not in ("let", "mut", "if", "else", "for", "in", "match", "return", "while", "loop", "as"):
                    x = f"n{names.setdefault(x, len(names))}"
                out.append("#" if x[0].isdigit() else x)
            if len(out) >= 30:
                yield f"{f} {m.group(2)}", " ".join(out)


same = {}
for name, body in bodies():
    same.setdefault(body, []).append(name)
tell("2  groups of functions whose bodies differ in names and numbers alone", ["; ".join(v) for v in same.values() if len(v) > 1])
tell("3a loops that count an index by hand", lines(r"^\s*while "))
tell("3b loops over a range", lines(r"^\s*for \w+ in [^{]*\.\."))
tell("4a enums and structs that derive no more than Clone and Copy", [f"{f}" for f, t in texts.items() for _ in re.finditer(r"#\[derive\(Clone, Copy\)\]", t)])
tell("4b functions that convert by a match or by tests, case by case", [f"{f} {m.group(1)}" for f, t in texts.items() for m in re.finditer(r"fn (number|figure|refusal|type_of|type_number|kind_of|kind|place|is_skipped|read_kind|header_number|mb_type)\(", t)])


def facts():
    found = {}
    for f, t in texts.items():
        crate = f.split("/")[1]
        for m in re.finditer(r"^ *requires \{ (.*) \}$", t, re.M):
            heads = set()
            for part in re.split(r" × |^\(|\)$", m.group(1)):
                part = part.strip(" ()")
                h = re.match(r"[A-Z]\w+|\w+_fine\b|in_data\b", part)
                if h:
                    heads.add(h.group(0))
            for h in heads:
                found.setdefault((crate, h), []).append(f)
    return [f"{c}: {h} in {len(v)}" for (c, h), v in sorted(found.items()) if len(v) >= 3]


tell("5  facts that three or more functions of a crate ask", facts())
tell("6  buffers with a length beside them, parallel arrays", lines(r"^\s*(pub )?(len|n|end): usize,|&mut which\b|^const \w+_(SOURCE|BLOCK|LEN|CODE): "))
tell("7  which step to run, by a flag or an enum", lines(r"^\s*if reversible \{|^\s*match scan_type \{|^\s*match direction \{|^\s*match source \{|^\s*match form \{"))
