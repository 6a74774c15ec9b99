#!/usr/bin/env python3
"""Brings the repository's own definitions, lemmas, fields and binders to snake case: `beginAnswer` and `begin-answer`
become `begin_answer`. Types and modules keep their capitals, names of the source and names that the check makes theirs.

usage: python3 tools/snake_names.py [--list]     at the top; --list prints the names and changes nothing
"""
import re
import sys
from pathlib import Path

ROOT = Path.cwd()
WORD = re.compile(r"[^\s(){}\[\].,;\"λ∀→≡×⌜⌝|@:=<>+*/%&!?]+")
DEFINED = re.compile(r"^(?P<indent>\s*)(?:(?:abbrev|unfoldable|opaque|pub|record|data|ruleset|instance)\s+)*(?P<names>[^\s(){}\[\].,;:=\"]+(?:\s+[^\s(){}\[\].,;:=\"]+)*)\s+:(?=\s)")
BINDER = re.compile(r"[({]([^(){}:→=]+?)\s+:(?=\s)")
LAMBDA = re.compile(r"λ\s+([^.(){}→=]+)\.")
LET = re.compile(r"\blet\s+([^\s(){}.,;:=]+)\s+[:=]")
GHOST = re.compile(r"^\s*ghost\s+(?!use\b|invariant\b)([^\s(){}:]+):")


# Lemmas that would have the name of a definition that their file cites.
BY_FILE = {
    ("crates/console/proofs/Texts.antt", "passed_on"): "passed_on_lem",
    ("crates/inspection/proofs/table/completed/Answers.antt", "one_more"): "one_more_lem",
}
# Fields that would hide the definition that they speak of.
CHOSEN = {"with-replacement": "if_with_replacement", "without-replacement": "if_without_replacement"}


def files():
    return sorted(p for p in (ROOT / "crates").rglob("*") if p.suffix in (".antt", ".rt") and "out" not in p.parts)


def wants(name):
    if not name[0].islower() or name == "-":
        return False
    return "-" in name.strip("-") or re.search(r"[a-z0-9][A-Z]", name) is not None


def snake(name):
    name = re.sub(r"(?<=[a-z0-9])([A-Z])", lambda m: "_" + m.group(1).lower(), name)
    return name.replace("-", "_")


def is_goal_file(path):
    return path.name in ("Answers.antt", "Invariants.antt", "Proof.antt")


def made_names(path, text):
    """The names that a file of answers gives to goals of the check."""
    if not is_goal_file(path):
        return set()
    return set(re.findall(r"\b(?:goal|need|given)\.([^\s(){}.,;:]+)", text))


def defined(path, text):
    found = set()
    goals = made_names(path, text)
    for line in text.splitlines():
        code = line.split("--")[0] if line.lstrip().startswith("--") else line
        m = DEFINED.match(code)
        if m:
            found.update(n for n in m.group("names").split() if n not in goals)
        for pattern in (BINDER, LAMBDA, LET):
            for m in pattern.finditer(code):
                found.update(m.group(1).split())
    return {n for n in found if wants(n) and not n.startswith("loop-") and not n.startswith("returns-")}


def foreign(text):
    """The names that a file imports from elsewhere than this repository."""
    own = {p.name for p in (ROOT / "crates").iterdir()}
    found = set()
    for m in re.finditer(r"\buse\s+([^\s{;]+?)\.?\{([^}]*)\}", text):
        parts = m.group(1).split(".")
        if parts[0] == "Rattle" and len(parts) > 1 and parts[1] in own:
            continue
        for item in m.group(2).split(","):
            found.add(item.split(" as ")[0].strip())
    return found


def main():
    texts = {p: p.read_text() for p in files()}
    names = set()
    for path, text in texts.items():
        if path.suffix == ".antt":
            names |= defined(path, text)
        else:
            names |= {m.group(1) for line in text.splitlines() for m in [GHOST.match(line)] if m and wants(m.group(1))}
    taken = {n for text in texts.values() for n in foreign(text)}
    clash = sorted(names & taken)
    goals = {n for p, t in texts.items() for n in made_names(p, t)}
    clash += sorted(names & goals)
    names -= set(clash)
    new = {n: snake(n) for n in names}
    # a lemma that would have its definition's name
    new |= {n: snake(n) + "_lem" for n in names if "-" in n and any(m != n and snake(m) == snake(n) for m in names)}
    new |= {n: to for n, to in CHOSEN.items() if n in names}
    used = {w for text in texts.values() for w in WORD.findall(text)}
    together = {}
    for n in sorted(names):
        together.setdefault(new[n], []).append(n)
    for to, olds in sorted(together.items()):
        if len(olds) > 1 or to in used:
            print("falls together:", to, "<-", ", ".join(olds), "(also there already)" if to in used else "")
    print("left, another library or a goal has the name:", ", ".join(clash))
    if "--list" in sys.argv:
        for n in sorted(names):
            print(n, "->", new[n])
    for path, text in texts.items():
        words = set(WORD.findall(text))
        met = sorted(n for n in words & names if new[n] in words)
        if met and path.suffix == ".antt":
            print("both in", path.relative_to(ROOT), ":", ", ".join(met))
    if "--list" in sys.argv:
        return
    for path, text in texts.items():
        here = new | {n: to for (f, n), to in BY_FILE.items() if f == str(path.relative_to(ROOT))}
        turned = WORD.sub(lambda m: here.get(m.group(0), m.group(0)), text)
        if turned != text:
            path.write_text(turned)
    print(len(names), "names")


if __name__ == "__main__":
    main()
