#!/usr/bin/env python3
"""Brings the repository's own definitions and lemmas to today's spelling, after port.py: words in snake case.

usage: python3 tools/respell.py        at the top of the repository, once

A definition, field or constructor: camel humps and dashes become underscores. A lemma: humps too, and its dashes but for one beside the name of a definition of
specs/ or of a list operation, where it parts the names of a left side. A lemma whose new spelling another name has keeps its dashes. The name under which a
function's proof is looked for is the function's and `_spec`. Names of goals, and what follows a dot that no record here declares, stay: the check makes those.
"""
import glob
import re
import sys

MODS = r"(?:pub |abbrev |unfoldable |package |opaque )*"
DECL = re.compile(r"^(\s*)" + MODS + r"((?:record |data )?)([^\s(){}\[\],;.|@\"]+)((?: \([^()]*\)| \{[^{}]*\})*) : (.*)")
TOKEN = re.compile(r"[^\s(){}\[\],;.|@\"«»·`]+")
# Names that stand several in a line of a data type, variables, and what a file imports a name as.
MORE = """
stopPublishing stopPlayback windowSize setChunkSize isOne startedPublish startedPlay grantsPublish grantsPlay stopsPublishing stopsPlayback aCamera
aText abortOf acceptedOf acknowledgementOf commandName glyphOf grantedOf messageCall noRequests noneOf numberValue openedPlace sameOf stoppedOf storedText
withoutOf amf0Data amf0Command amf3Data amf3Command
""".split()
# What port.py called the clauses that had no name, and what they are called here.
CLAUSES = [
    (r"requires fact_\d (\{ (?:length \(stretch )?(?:length )?(\w+)\.now[^\n]*< 2 \^ 16 \})", r"requires \2_short \1"),
    (r"requires fact_\d (\{ at \+ [^\n]*≤ length out\.old \})", r"requires room \1"),
    (r"requires fact_1 (\{ n < 2 \^ 24 \})", r"requires in_range \1"),
    (r"requires fact_1 (\{ texts_sound)", r"requires sound \1"),
    (r"ensures s_value \{", "ensures rest {"),
    (r"ensures lower_bound (\{ \(at)", r"ensures within \1"),
]
LISTS = {"length", "append", "cons", "nil", "take", "drop", "set", "sets", "map", "replicate", "lookup"}


def humps(s):
    return re.sub(r"(?<=[a-z0-9])([A-Z])", lambda m: "_" + m.group(1).lower(), s)


def declared(files):
    names, fields, goals = {}, set(), set()
    for f in files:
        block = None
        for line in open(f, encoding="utf-8"):
            m = DECL.match(line)
            if re.match(r"^\s*(?:pub )?record .* where", line):
                block = len(line) - len(line.lstrip())
                continue
            if line.strip() and block is not None and len(line) - len(line.lstrip()) <= block:
                block = None
            if not m:
                continue
            name, kind = m.group(3), m.group(2)
            if name.startswith("--") or kind:
                continue
            if block is not None:
                fields.add(name)
            if m.group(5).startswith(("tie.", "goal.")):
                goals.add(name)
            names.setdefault(name, set()).add("specs" if "/specs/" in f else "proofs")
    return names, fields, goals


def table(files):
    names, fields, goals = declared(files)
    functions = {}
    for f in files:
        m = re.match(r"crates/[^/]+/proofs/(?:.*/)?([^/]+)/Proof\.antt$", f)
        if m:
            functions[m.group(1).replace("_", "-") + "-spec"] = m.group(1) + "_spec"
    defs = {n for n, w in names.items() if "specs" in w}
    words = {humps(n).replace("-", "_") for n in defs} | LISTS
    new = {}
    for n in sorted(names):
        if n[0].isupper() or "μ" in n or "◌" in n or n in goals and n not in functions:
            continue
        if n in functions:
            new[n] = functions[n]
        elif n in defs or n in fields:
            new[n] = humps(n).replace("-", "_")
        else:
            parts = humps(n).split("-")
            out = parts[0]
            for a, b in zip(parts, parts[1:]):
                out += ("-" if a in words or b in words else "_") + b
            new[n] = out
    taken = {}
    for n in names:
        taken.setdefault(new.get(n, n), []).append(n)
    said = []
    for to, olds in sorted(taken.items()):
        if len(olds) > 1:
            for n in olds:
                if n not in defs and n not in fields:
                    new[n] = (to if n == to else humps(n)).replace("_", "-") if "-" not in n else humps(n)
            said.append(f"fall together at {to}: {', '.join(sorted(olds))}; now {', '.join(sorted(new.get(n, n) for n in olds))}")
    for f in files:
        present = {m.group(0) for m in TOKEN.finditer(code(f))}
        for n in sorted(present & set(new)):
            if new[n] != n and new[n] in present and n not in defs and n not in fields and n not in functions:
                said.append(f"{f} has {new[n]} already: {n} stays {humps(n)}")
                new[n] = humps(n)
    return {a: b for a, b in new.items() if a != b}, fields, said


def code(f):
    return re.sub(r'"(?:[^"\\\n]|\\.)*"|--[^\n]*|(?<=\.)[^\s(){}\[\],;.|@"]+', "", open(f, encoding="utf-8").read())


def turned(text, new, fields):
    def one(m):
        t = m.group(0)
        if t not in new:
            return t
        before = text[m.start() - 1] if m.start() else ""
        if before == "." and t not in fields and not re.search(r"[a-z0-9][A-Z]", t):
            return t
        return new[t]

    return TOKEN.sub(one, text)


def aside(text, comment, change):
    """Changes the text outside strings and comments, and in comments what stands between backticks."""

    def one(i, p):
        if i % 2 == 0:
            return change(p)
        return re.sub(r"`[^`\n]*`", lambda m: change(m.group(0)), p) if p.startswith(comment) else p

    return "".join(one(i, p) for i, p in enumerate(re.split(r'("(?:[^"\\\n]|\\.)*"|' + comment + r"[^\n]*)", text)))


def main():
    files = sorted(glob.glob("crates/*/specs/**/*.antt", recursive=True) + glob.glob("crates/*/proofs/**/*.antt", recursive=True))
    new, fields, said = table(files)
    print("\n".join(said))
    for f in files:
        t = open(f, encoding="utf-8").read()
        u = aside(t, "--", lambda p: turned(p, new, fields))
        if u != t:
            present = {m.group(0) for m in TOKEN.finditer(code(f))}
            for a, b in sorted(new.items()):
                if a in present and b in present:
                    print(f"look: {f}: {a} becomes {b}, which stands there already")
            open(f, "w", encoding="utf-8").write(u)
    camel = {a: b for a, b in new.items() if re.search(r"[a-z0-9][A-Z]", a)}
    for f in sorted(glob.glob("crates/*/src/**/*.rt", recursive=True)):
        t = open(f, encoding="utf-8").read()
        u = aside(t, "//", lambda p: turned(p, camel, fields))
        if u != t:
            open(f, "w", encoding="utf-8").write(u)
    for f in sorted(glob.glob("crates/*/must-fail/*.edit")):
        t = open(f, encoding="utf-8").read()
        u = aside(t, "# [^r]", lambda p: turned(p, new, fields))
        if u != t:
            open(f, "w", encoding="utf-8").write(u)
    more = {n: humps(n) for n in MORE}
    for f in files + sorted(glob.glob("crates/*/src/**/*.rt", recursive=True) + glob.glob("crates/*/must-fail/*.edit")):
        t = open(f, encoding="utf-8").read()
        u = aside(t, "//" if f.endswith(".rt") else "--" if f.endswith(".antt") else "# [^r]", lambda p: re.sub(r"\b(" + "|".join(more) + r")\b", lambda m: more[m.group(0)], p))
        if f.endswith(".rt"):
            for old, to in CLAUSES:
                u = re.sub(old, to, u)
        if u != t:
            open(f, "w", encoding="utf-8").write(u)
    print(f"{len(new)} names respelled", file=sys.stderr)
    return 0


if __name__ == "__main__":
    raise SystemExit(main())
