#!/usr/bin/env python3
"""Brings the repository's own definitions and lemmas to today's spelling, once, after the toolchain's own script.

    python3 tools/respell.py            in the repository: rewrites crates/, README.md and docs/ in place
    python3 tools/respell.py --list     only lists each old name with its new one

Functions and lemmas are in snake case, facts (definitions that give a type) in upper camel case. A dash stays where it
joins two names that both stand for something, as in bit-zero; any other word is added by an underscore. A name whose new
spelling another name of this repository or of the library has keeps its dash, or gets the ending in SETTLED. One that a
function of the code has is turned all the same, and told: a clause cannot call code. Names of the code, strings, inputs
and outputs are left as they are. Where the names are turned already, nothing is done.
"""

import glob
import re
import sys

NAME = r"[^\s(){}\[\],;.:@`\"|\\]+"
TOKEN = re.compile(NAME)
DEFINED = re.compile(r"^\s*(?:(?:unfoldable|abbrev|pub)\s+)*(" + NAME + r")\s*:\s(.*)$")
DECLARED = re.compile(r"^\s*(?:pub )?(?:record|data) (" + NAME + ")")
FIELD = re.compile(r"^\s+pub (" + NAME + r")\s*:\s")
BETWEEN = re.compile(r"use (\S+?)\.?\{([^}]*)\}")

# names whose plain new spelling is taken: what they are called instead
SETTLED = {
    "canOrigin": "can_origin",
    "can-origin": "can_origin_lem",
    "firstOk": "first_ok",
    "first-ok": "first_ok_lem",
    "fromLowest": "from_lowest",
    "from_lowest": "from_lowest_lem",
    "isIn": "is_in",
    "is-in": "is_in_lem",
    "is-null": "is_null_lem",
    "first-octet": "first_octet_lem",
    "inMap": "in_map",
    "noneYet": "none_yet",
    "ofFormat": "of_format",
    "oneMore": "one_more",
}


def read(path):
    with open(path, encoding="utf-8") as f:
        return f.read()


def specs_and_proofs():
    return sorted(glob.glob("crates/*/specs/**/*.antt", recursive=True) + glob.glob("crates/*/proofs/**/*.antt", recursive=True))


def made(path):
    """Files whose names are goals of the check, and not the repository's own."""
    return path.endswith(("/Answers.antt", "/Invariants.antt", "/Choices.antt", "/Lib.antt"))


def own_names():
    """Each name that a file of specs/ or proofs/ defines, and whether it gives a type."""
    found = {}
    for path in specs_and_proofs():
        in_record = False
        lines = read(path).split("\n")
        for i, line in enumerate(lines):
            it = DECLARED.match(line)
            if it:
                found[it.group(1)] = True
                in_record = line.rstrip().endswith("where")
                continue
            if in_record and line and not line[0].isspace():
                in_record = False
            it = DEFINED.match(line)
            if not it or "=" in line.split(":")[0]:
                continue
            name = it.group(1)
            if made(path) and re.search(re.escape(name) + r"\s*:\s*(goal|given)\.", line):
                continue
            if name in ("use", "module", "let", "λ") or not re.match(r"[A-Za-z]", name):
                continue
            found[name] = found.get(name, False) or it.group(2).rstrip().endswith("Type 0")
    return found


def taken():
    """Names of the library that files import, and names of the code."""
    library, code = set(), set()
    for path in specs_and_proofs() + sorted(glob.glob("crates/*/src/*.rt")):
        for at, names in BETWEEN.findall(read(path)):
            own = re.match(r"Rattle\.(\w+)\.", at + ".")
            if own and own.group(1) != "std":
                continue
            for n in names.split(","):
                library.add(n.split(" as ")[-1].strip())
                library.add(n.split(" as ")[0].strip())
    for path in sorted(glob.glob("crates/*/src/*.rt")):
        text = re.sub(r"//.*", "", read(path))
        text = re.sub(r"ghost use [^;]*;", "", text)
        text = re.sub(r"\b(requires|ensures|ghost)\b[^{;]*\{[^\n]*\}", "", text)
        code |= set(re.findall(r"[A-Za-z_][A-Za-z0-9_]*", text))
    return library, code


def snake(name):
    return re.sub(r"(?<=[a-z0-9])([A-Z])", lambda m: "_" + m.group(1).lower(), name)


def camel(name):
    return "".join(p[:1].upper() + p[1:] for p in re.split(r"[-_]", name))


def spelled(name, gives_type, words):
    if gives_type:
        return camel(name)
    parts = [snake(p) for p in name.split("-")]
    out = parts[0]
    for before, part in zip(parts, parts[1:]):
        out += ("-" if before in words and part in words else "_") + part
    return out


def renames():
    own = own_names()
    library, code = taken()
    words = {snake(n) for n in own if "-" not in n} | {n for n in library if "-" not in n}
    turned, said = {}, []
    for name in sorted(own):
        if name not in SETTLED and not re.search(r"-|[a-z][A-Z]", name) and not (own[name] and name[0].islower()):
            continue
        if re.match(r"[A-Z]", name) and "-" not in name:
            continue
        new = SETTLED.get(name) or spelled(name, own[name], words)
        if new == name:
            continue
        clash = [w for w, s in (("own", set(own)), ("library", library), ("new", set(turned.values()))) if new in s]
        if clash and name not in SETTLED:
            said.append((name, new, "/".join(clash)))
            new = None
        elif new in code and name not in SETTLED:
            said.append((name, new, "code"))
        if new:
            turned[name] = new
    return turned, said


def turn(text, turned):
    return TOKEN.sub(lambda m: turned.get(m.group(0), m.group(0)), text)


def together(paths, turned):
    """Places where two names of one file would become one."""
    for path in paths:
        at = {}
        for name in set(TOKEN.findall(read(path))):
            at.setdefault(turned.get(name, name), []).append(name)
        for new, olds in sorted(at.items()):
            if len(olds) > 1:
                yield path, new, sorted(olds)


def main():
    if not {"fromLowest", "canOrigin"} & set(own_names()):
        print("the names are turned already")
        return
    turned, said = renames()
    for old, new, why in said:
        print(f"{'also' if why == 'code' else 'kept, taken by'} {why}: {old} -> {new}")
    paths = specs_and_proofs() + sorted(glob.glob("crates/*/src/*.rt")) + sorted(glob.glob("crates/*/must-fail/*.edit"))
    if "--list" in sys.argv:
        for old in sorted(turned):
            print(old, turned[old])
    for path, new, olds in together(paths, turned):
        print(f"together: {path}: {', '.join(olds)} -> {new}")
    if "--list" in sys.argv:
        return
    for path in paths:
        text = read(path)
        new = turn(text, turned)
        if new != text:
            with open(path, "w", encoding="utf-8") as f:
                f.write(new)
    for path in ["README.md"] + sorted(glob.glob("docs/*.md")):
        text = read(path)
        new = re.sub(r"`[^`\n]+`", lambda m: turn(m.group(0), turned), text)
        if new != text:
            with open(path, "w", encoding="utf-8") as f:
                f.write(new)
    print(f"{len(turned)} names turned")


if __name__ == "__main__":
    main()
