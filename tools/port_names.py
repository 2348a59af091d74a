#!/usr/bin/env python3
"""Brings the repository's own names to today's spelling, once, right after port.py.

usage: tools/port_names.py [--dry] [--table FILE]        at the top of the repository; FILE gets each old name and its new one

  aboutOf, noRect     definitions, lemmas and the variables in them: snake case (about_of, no_rect)
  not-below           a dash that joins two plain words becomes an underscore; one that joins two of the names in JOINED stays
                      (add-le), and a lemma that would then have a definition's name ends in _lem
  sameVector          what is a type is in camel case (SameVector)
  specs/Contracts     Rattle makes a module of that name now: specs/Inner
  result              the definition in ground's Settle is result_of, since result is what a function returns
  λ r. ⌜ .. ⌝          a clause that kept its λ says result

Names of src/, of the library, exported names, strings and numbers stay. Names in comments, in README.md and in docs/ follow where they are
in camel case or stand between backquotes.
"""

import collections
import os
import re
import sys

TOKEN = re.compile(r"--[^\n]*|//[^\n]*|\"(?:[^\"\\]|\\.)*\"|«[^»]*»|[^\s(){}.;,@\"«»\[\]\\]+")
WORDS = re.compile(r"[^\s(){}.;,@\"«»\[\]\\`:]+")
DECLARED = re.compile(r"^[ \t]*(?:(?:pattern|unfoldable|abbrev|pub|axiom)\s+)*((?:[^\s(){}.;,@\"«»\[\]\\:]+[ \t]+)+):\s", re.M)
IMPORT = re.compile(r"^\s*(?:ghost )?use ([^\s;{]+?)\.?(?:\{([^}]*)\})?(?: as \S+?)?;?\s*$", re.M)
# A dash between two of these joins two names.
JOINED = set(
    "le lt eq ne nle nlt add sub mul div neg abs min max round length append cons map take drop put get exec bind pure root exp sin cos "
    "square scale insert perm sort flat recs plus times sum sums".split()
)
# Parts of the names that Rattle makes: a field or a goal of such a name is not the repository's.
MADE = re.compile(
    r"^(well-formed|type-inv|view-is|loan-name|loop-.*|if-.*|in-.*|not-[A-Z].*|overflow.*|returns.*|.*-requires.*|Need-.*|Then.*|Else.*|Joined.*|In-.*|After-.*|invariant-.*|decreases-.*|float-.*)$"
)
# A lemma whose name a definition gets now.
LEMMAS = [("within_of", "crates/"), ("step_by", "crates/ground/proofs/"), ("step_run", "crates/promises/"), ("in_order", "crates/promises/")]
TYPES = {"sameVector": "SameVector", "sameMotion": "SameMotion", "past-mark": "PastMark", "Flown-from": "FlownFrom"}


def files(*ends):
    for top in ("crates",):
        for folder, dirs, names in os.walk(top):
            dirs[:] = sorted(d for d in dirs if d not in ("out", "must-fail"))
            for name in sorted(names):
                if name.endswith(ends):
                    yield os.path.join(folder, name)


def read(path):
    with open(path, encoding="utf-8") as it:
        return it.read()


def snake(word):
    word = re.sub(r"([a-z0-9])([A-Z])", r"\1_\2", word)
    return re.sub(r"([A-Z])([A-Z][a-z])", r"\1_\2", word).lower()


def is_camel(part):
    return bool(re.match(r"[a-z][a-z0-9]*[A-Z]", part))


def plain(name):
    """Camel case goes, in each part between dashes that does not begin with a capital."""
    return "-".join(snake(p) if is_camel(p) else p for p in name.split("-"))


def dashes(name):
    """A dash stays between two names, and before or after a sign; else it is an underscore."""
    parts = name.split("-")
    out = parts[0]
    for left, right in zip(parts, parts[1:]):
        keep = (left in JOINED and right in JOINED) or not left or not right or not re.match(r"\w", right) or right[0].isupper() or left[0].isupper()
        out += ("-" if keep else "_") + right
    return out


def gather():
    texts = {p: read(p) for p in files(".antt", ".rt")}
    crates = set(os.listdir("crates"))
    foreign, own, made = set(), collections.Counter(), set()
    tokens = collections.Counter()
    for path, text in texts.items():
        for m in IMPORT.finditer(text):
            parts = m[1].split(".")
            if not (parts[0] == "Rattle" and len(parts) > 1 and parts[1] in crates) and m[2]:
                foreign.update(n.strip().split(" as ")[0] for n in m[2].split(","))
        if path.endswith(".antt"):
            for m in DECLARED.finditer(text):
                rest = text[m.end() : m.end() + 40]
                for n in m[1].split():
                    if n in ("λ", "let", "|", "in", "where", "module", "_", "use", "data", "record", "open"):
                        continue
                    (made.add(n) if re.match(r"\s*(tie|goal|lts|in-met)\.", rest) and not own.get(n) else own.update([n]))
        for m in TOKEN.finditer(text):
            tokens[m[0]] += 1
    # functions and values of the source keep their names
    source = set()
    for path, text in texts.items():
        if path.endswith(".rt"):
            source.update(re.findall(r"\b(?:fn|struct|enum|const|static|mod|type)\s+(\w+)", text))
            source.update(re.findall(r"^    pub (\w+): ", text, re.M))
    return texts, own, foreign, source, tokens


def mapping(texts, own, foreign, source, tokens):
    to = {}
    for name in tokens:
        if name in foreign or name in source or name.startswith(("--", "//", '"', "«")) or "◌" in name:
            continue
        if name in TYPES:
            to[name] = TYPES[name]
        elif any(is_camel(p) for p in name.split("-")):
            new = plain(name)
            to[name] = dashes(new) if name in own else new
        elif name in own and "-" in name.strip("-") and re.match(r"[a-z]", name):
            new = dashes(name)
            if new != name:
                to[name] = new
    # names that would fall together: a lemma gives way
    into = collections.defaultdict(list)
    for name, new in to.items():
        into[new].append(name)
    for new, names in sorted(into.items()):
        there = [new] if new in own or new in foreign or new in tokens and new in source else []
        if len(names) + len(there) > 1:
            for name in names:
                if "-" in name:
                    to[name] = new + "_lem"
            left = [n for n in names if "-" not in n]
            print("together:", new, names, there, "->", {n: to[n] for n in names})
            if len(left) + len(there) > 1:
                print("  LEFT TOGETHER", left, there)
    return to


def rewritten(path, text, to, own):
    lemmas = {n: n + "_lem" for n, where in LEMMAS if path.startswith(where) and path.endswith(".antt")}

    def turn(m):
        word, at = m[0], m.start()
        if word in lemmas and text[at - 1 : at] != ".":
            return lemmas[word]
        if word.startswith(("--", "//")):
            return WORDS.sub(lambda w: to[w[0]] if w[0] in to and any(is_camel(p) for p in w[0].split("-")) else w[0], word)
        if word not in to:
            return word
        if at and text[at - 1] == "." and MADE.match(word) and not any(is_camel(p) for p in word.split("-")):
            return word
        return to[word]

    return TOKEN.sub(turn, text)


def clauses(text):
    """A clause λ r. ⌜ P ⌝ becomes P, with result for r."""

    def turn(m):
        var, body = m[2], m[3]
        body = re.sub(rf"(?<![\w.'-]){var}(?![\w'-])", "result", body)
        return f"{m[1]} {{ {body} }}"

    return re.sub(r"(ensures)\* \{ λ (\w+)\. ⌜ (.*?) ⌝ \}", turn, text, flags=re.S)


def result_of(path, text):
    """The definition result of ground's Settle."""
    if not (path.startswith("crates/ground/specs/Settle.antt") or re.search(r"use Rattle\.ground\.specs\.Settle\.\{[^}]*\bresult\b", text)):
        return text
    return re.sub(r"(?<![\w.'«-])result(?![\w'»-])", "result_of", text)


def pages(to):
    for path in ["README.md", "CONTRIBUTING.md"] + [os.path.join(d, f) for d, _, fs in os.walk("docs") for f in fs if f.endswith(".md") and not f.startswith("PORT")]:
        if not os.path.isfile(path):
            continue
        text = read(path)

        def quoted(m):
            return WORDS.sub(lambda w: to.get(w[0], w[0]), m[0])

        new = re.sub(r"`[^`\n]+`", quoted, text)
        new = WORDS.sub(lambda w: to[w[0]] if w[0] in to and is_camel(w[0]) else w[0], new)
        new = new.replace("specs/Contracts.antt", "specs/Inner.antt")
        if new != text:
            yield path, new


def hidden(path, text):
    """A parameter that has the name of a word in the clauses of its function."""
    for m in re.finditer(r"\bfn (\w+)\s*\(([^)]*)\)[^{;]*?((?:\s+(?:requires|ensures)\b[^\n]*\n)+)", text):
        params = re.findall(r"(?:mut )?(\w+)\s*:", m[2])
        said = set(re.findall(r"[\w'-]+", m[3]))
        words = set(w for g in re.findall(r"ghost use [^{]*\{([^}]*)\}", text) for w in re.split(r"[,\s]+", g))
        for p in params:
            if p in said and p in words:
                print(f"hidden: {path}: {m[1]}: {p}")


def main():
    dry = "--dry" in sys.argv
    texts, own, foreign, source, tokens = gather()
    to = mapping(texts, own, foreign, source, tokens)
    changed = 0
    for path, text in texts.items():
        before = set(m[0] for m in TOKEN.finditer(text))
        for name in sorted(before):
            if name in to and to[name] in before and to[name] not in to:
                print(f"look: {path}: {name} -> {to[name]}, which stands there already")
        new = text
        if path.endswith(".rt"):
            new = result_of(path, new)
            new = clauses(new)
        else:
            new = result_of(path, new)
        new = rewritten(path, new, to, own)
        new = re.sub(r"(Rattle\.\w+\.specs)\.Contracts\b", r"\1.Inner", new)
        if path.endswith("specs/Lib.antt"):
            new = re.sub(r"\bmod Contracts\b", "mod Inner", new)
        if path.endswith(".rt"):
            hidden(path, new)
        if new != text:
            changed += 1
            if not dry:
                with open(path, "w", encoding="utf-8") as it:
                    it.write(new)
        if path.endswith("specs/Contracts.antt") and not dry:
            os.rename(path, path.replace("Contracts.antt", "Inner.antt"))
    for path, new in pages(to):
        changed += 1
        if not dry:
            with open(path, "w", encoding="utf-8") as it:
                it.write(new)
    print(f"{len(to)} names, {changed} files")
    if "--table" in sys.argv:
        with open(sys.argv[sys.argv.index("--table") + 1], "w", encoding="utf-8") as it:
            it.writelines(f"{a}\t{b}\n" for a, b in sorted(to.items()))


if __name__ == "__main__":
    main()
