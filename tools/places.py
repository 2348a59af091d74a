#!/usr/bin/env python3
"""Counts the places in src/ that docs/DESIGN-PASS.md speaks of, point by point: tools/places.py [FOLDER] [--list]."""
import glob
import re
import sys
from collections import Counter

ROOT = next((a for a in sys.argv[1:] if not a.startswith("-")), ".")
LIST = "--list" in sys.argv


def sources():
    for path in sorted(glob.glob(f"{ROOT}/crates/*/src/**/*.rt", recursive=True)):
        text = re.sub(r"(?m)^\s*//.*$", "", open(path).read())
        yield path[len(ROOT) + 1:] if path.startswith(ROOT + "/") else path, text


def found(pattern, flags=re.M):
    for path, text in sources():
        for m in re.finditer(pattern, text, flags):
            yield path, text.count("\n", 0, m.start()) + 1, " ".join(m.group(0).split())


def functions():
    for path, text in sources():
        for m in re.finditer(r"fn (\w+)[^(;{]*\(([^{]*?)\)\s*(->[^\n{]*)?\n([^{]*(?:\{[^\n]*\}[^{\n]*)*)", text):
            yield path, text.count("\n", 0, m.start()) + 1, m


def facts():
    """The facts of `requires` clauses, each with how many clauses say it."""
    said = Counter()
    for _, text in sources():
        for m in re.finditer(r"requires\s*(?:\w+\s*)?\{(.*?)\}\n", text, re.S):
            said.update({" ".join(p.split()).strip(" ()") for p in m.group(1).split("×")})
    return {f: n for f, n in said.items() if n >= 3}


def together():
    """Pairs of parameters of one type each that stand side by side in four or more functions."""
    pairs = Counter()
    for _, _, m in functions():
        names = [" ".join(p.split()) for p in re.split(r",(?![^<\[]*[>\]])", m.group(2)) if ":" in p]
        pairs.update(zip(names, names[1:]))
    return {p: n for p, n in pairs.items() if n >= 4}


POINTS = {
    "1a own enums": lambda: found(r"^(pub )?enum \w+"),
    "1b a number or a flag beside a value (answer, seen, side, phase)": lambda: found(r"^    (pub )?(answer: u32|seen: bool|side: u8|phase: u8|indexed: bool)"),
    "1c functions that give a number for a kind or a refusal": lambda: (
        x for x in found(r"^\s*(pub )?fn \w+\([^{]*?\) -> u(8|32)$", re.M | re.S) if "extern" not in x[2]),
    "2 functions whose text differs only in names and numbers": lambda: twins(),
    "3 loops by hand": lambda: found(r"\b(while|loop)\b[^\n]*\{$"),
    "4 equality, order, conversion or printing by hand": lambda: found(
        r"fn (same|is_same|was_phase|whole_phase|phase_number|termination_number|termination_of|moving|is_rest|pair|quad|oct|wide|one|bit|truth_number|byte_of|cleaner|is_before|put_termination)\b"),
    "5a facts in three or more requires clauses": lambda: (("", n, f) for f, n in sorted(facts().items())),
    "5b parameters side by side in four or more functions": lambda: (("", n, " ".join(p)) for p, n in sorted(together().items())),
    "6 arrays by value, lengths beside buffers": lambda: found(r"\[\w+; \d+\](?=,| ->|\)|\n|;)|\bcount: (usize|u64)|\bn: usize"),
    "7 flags that choose the step": lambda: found(r"\b(hops|due|fading|indexed|minus|rolling|again): bool|\b[od]: (u64|usize)(?=[,)])"),
    "8 proof files in the older form": lambda: ((p[len(ROOT) + 1:], 0, "") for p in sorted(glob.glob(f"{ROOT}/crates/*/proofs/**/Proof.antt", recursive=True))),
}


def twins():
    shapes = {}
    for path, text in sources():
        for m in re.finditer(r"(?m)^( *)(?:pub )?(?:extern \"C\" )?fn (\w+).*?\n\1\}\n", text, re.S):
            body = m.group(0)
            if body.count("\n") < 5:
                continue
            shape = re.sub(r"\b\d[\w.]*\b", "0", re.sub(r"\b[a-zA-Z_]\w*\b", lambda w: w.group(0) if w.group(0) in KEEP else "x", body))
            shapes.setdefault(" ".join(shape.split()), []).append((path, text.count("\n", 0, m.start()) + 1, m.group(2)))
    for same in shapes.values():
        if len(same) > 1:
            yield from same


KEEP = {"fn", "pub", "let", "mut", "if", "else", "while", "loop", "match", "return", "for", "in", "as", "true", "false", "self", "requires", "ensures"}

for name, places in POINTS.items():
    places = list(places())
    print(f"{len(places):5} {name}")
    if LIST:
        for path, line, text in places:
            print(f"        {path}:{line} {text}" if path else f"        {line} times {text}")
