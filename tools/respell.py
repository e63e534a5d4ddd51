#!/usr/bin/env python3
"""Brings the names of this repository's own definitions and lemmas to today's spelling.

    python3 tools/respell.py            at the top of a checkout that port.py has just turned
    python3 tools/respell.py --show     prints the names, and changes nothing

Today's Rattle writes types in upper camel case and all else in snake case; an older one joined words by
dashes. A name is renamed where a file of specs/ or proofs/ declares it: as a definition, a lemma, a field,
a constructor or a member. Names that Rattle makes (of goals, loops and steps) keep their dashes, since an
answer's type begins with `goal.`. Functions of src/, strings, inputs and outputs stay as they are. Names are
replaced as whole words in .antt files, in .rt files outside strings, in must-fail edits, and between backticks
in README.md and docs/. The script prints the names that fall together, and then changes nothing.
"""
import pathlib
import re
import sys

ROOT = pathlib.Path(".")
DELIMITERS = r"\s(){}\[\],;.:|↦λ\"`"
WORD = re.compile(f"[^{DELIMITERS}]+")
DECLARED = re.compile(r"^\s*(?P<marks>(?:(?:abbrev|unfoldable|pub|data|record|opaque) )*)(?P<names>[^\s(){}:]+(?: [^\s(){}:]+)*?)(?P<params>(?: [({].*)?) :(?:\s|$)(?P<type>.*)")
# A word of the older library in a name of ours, and a fact that begins a lemma's name as it does in std.
FIXED = {"natAbs-+": "unsigned_abs-+", "All-more": "All-more"}


def texts(*suffixes):
    for path in sorted(ROOT.glob("crates/**/*")):
        if path.suffix in suffixes and path.is_file() and "out" not in path.parts:
            yield path


def respelt(name):
    """The name as today's Rattle spells it."""
    if name in FIXED:
        return FIXED[name]
    if re.search(r"[^\w'-]", name):
        return name
    parts = name.split("-")
    if name[0].isupper():
        return "".join(part[:1].upper() + part[1:] for part in parts)
    snake = "_".join(parts)
    return re.sub(r"(?<=[a-z0-9])([A-Z])(?=[a-z])", lambda m: "_" + m[1].lower(), snake)


def declared():
    """Each name that a file of specs/ or proofs/ declares, but for answers to goals that Rattle names."""
    found = {}
    for path in texts(".antt"):
        for line in path.read_text().split("\n"):
            m = DECLARED.match(line)
            if not m or line.lstrip().startswith("--") or re.match(r"\s*goal\.", m["type"]):
                continue
            for name in m["names"].split():
                if "-" in name or re.search(r"[a-z][A-Z]", name):
                    found.setdefault(name, path)
    return found


def made():
    """The names that Rattle makes: those that are answered as goals."""
    names = set()
    for path in texts(".antt"):
        for m in re.finditer(r"^\s*(?:abbrev |unfoldable )?(?:pub )?(\S+) : goal\.(\S+)", path.read_text(), re.M):
            names |= {m[1], m[2]}
    return names


def main():
    own = made()
    names = {n: respelt(n) for n in declared() if n not in own}
    names = {n: new for n, new in names.items() if n != new}
    taken = {}
    words = set()
    for path in texts(".antt"):
        # a module's path is no name: the folder of a function's proof may have the name of a lemma
        words |= set(WORD.findall(re.sub(r"\bRattle[.\w+']*", "", path.read_text())))
    clash = []
    for old, new in sorted(names.items()):
        if new in taken or new in words:
            clash.append(f"{old} -> {new}" + (f", as {taken[new]}" if new in taken else ", which stands already"))
        taken[new] = old
    if "--show" in sys.argv:
        print(*(f"{old} -> {new}" for old, new in sorted(names.items())), sep="\n")
    if clash:
        print("these names would fall together:", *clash, sep="\n  ")
        raise SystemExit(1)
    if "--show" in sys.argv:
        return
    turn = lambda m: names.get(m[0], m[0])
    changed = 0
    for path in texts(".antt", ".edit", ".rt"):
        old = path.read_text()
        if path.suffix == ".rt":
            new = re.sub(r'"(?:[^"\\\n]|\\.)*"|' + WORD.pattern, lambda m: m[0] if m[0].startswith('"') else turn(m), old)
        else:
            new = WORD.sub(turn, old)
        if new != old:
            path.write_text(new)
            changed += 1
    for path in [ROOT / "README.md", *sorted((ROOT / "docs").glob("*.md"))]:
        if path.exists():
            old = path.read_text()
            new = re.sub(r"`[^`\n]+`", lambda m: WORD.sub(turn, m[0]), old)
            if new != old:
                path.write_text(new)
                changed += 1
    print(f"{len(names)} names respelt, {changed} files changed")


main()
