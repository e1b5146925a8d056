#!/usr/bin/env python3
"""Brings the names of this repository's definitions, lemmas, fields and constructors to the spelling of today's Rattle: snake case.

usage: python3 tools/port_names.py [--report]      at the top of the repository, once, right after the kit's port.py

`inBounds` and `in-bounds` become `in_bounds`. Where a lemma and a definition would fall together, the lemma's name gets `_lem`. Names that
begin with a capital, names of the library, functions of src/, exported names and strings keep theirs. In documents, names between backticks
are turned. --report writes nothing, and prints where a new name meets another of the same spelling.
"""

import collections
import os
import re
import sys

# Lemmas that port.py has turned to the very name that a definition gets: by file kind, since a label in src/ may have the same name.
LEMMAS = "answers_at both_negative first_byte has_right in_bounds in_order kept_frame listed_in plain_lines raised_at rows_behind step_lines too_long".split()
# Names that would meet another of the same spelling in a file: what they become.
OTHERWISE = {}

LIBRARY = re.compile(r"\s*(?:pub )?(?:ghost )?use (?:Prim|mathlib|native|lib|borrow|logic|Rattle\.(?:std|core|io|libc|os)(?:_\w+)?)\b")
TOKEN = re.compile(r"[^\s(){}\[\],.;\"`]+")
DECLARED = re.compile(r"(\s*)((?:(?:pub|abbrev|unfoldable|opaque|irrelevant) )*)((?:record|data) )?([^\s(){}\[\],.;\"`]+)(?: [^:]*)? :(?: |$)")
WORDS = {"use", "module", "mod", "where", "let", "in", "unfolding", "record", "data", "pub", "abbrev", "unfoldable", "λ", "--"}


def files(root, ending):
    for folder, dirs, names in os.walk(root):
        dirs[:] = sorted(d for d in dirs if d not in ("out", ".git", "target", "dist", "__pycache__"))
        for name in sorted(names):
            if name.endswith(ending):
                yield os.path.join(folder, name)


def read(path):
    with open(path, encoding="utf-8") as file:
        return file.read()


def snake(name):
    if not name[:1].islower():
        return name.replace("-", "_")
    return re.sub(r"(?<=[a-z0-9])([A-Z])", lambda m: "_" + m[1].lower(), name).replace("-", "_")


def declared(root):
    """Names that the .antt files declare: at the margin, as fields and constructors, and locally."""
    found = collections.defaultdict(set)
    for path in files(os.path.join(root, "crates"), ".antt"):
        if os.path.basename(path) in ("Answers.antt", "Invariants.antt", "Proof.antt") and "/proofs/" in path:
            continue
        text = re.sub(r"(?m)(^|\s)--.*$", "", read(path))
        for group in re.findall(r"(?m)^ *(?:(?:pub|abbrev) )*((?:[a-z][\w'-]* )+)[:] ", text):
            for name in group.split():
                if name not in WORDS:
                    found[name].add(path)
        for group in re.findall(r"\bas ([a-z][\w'-]*)|\blet ([a-z][\w'-]*) [:=]|[({]((?:[a-z][\w'-]* )+):|λ ((?:[a-z][\w'-]* ?)+)\.", text):
            for name in " ".join(group).split():
                if name not in WORDS:
                    found[name].add(path)
    for path in files(os.path.join(root, "crates"), ".antt"):
        for line in read(path).split("\n"):
            match = DECLARED.match(line)
            if match and match[4] not in WORDS and not line.lstrip().startswith("--"):
                found[match[4]].add(path)
    return found


def mapping(found):
    turned = collections.defaultdict(set)
    for name in found:
        if re.match(r"[A-Za-z][\w'-]*$", name):
            turned[snake(name)].add(name)
    names = {}
    for new, olds in turned.items():
        for old in olds:
            if old in OTHERWISE:
                names[old] = OTHERWISE[old]
            elif "-" in old and any(o != old and "-" not in o for o in olds):
                names[old] = new + "_lem"
            elif old != new:
                names[old] = new
    for old in LEMMAS:
        names[old] = old + "_lem"
    return {old: new for old, new in names.items() if old != new}


def imported(text):
    """The names that a file takes from the library."""
    names = set()
    for match in re.finditer(r"(?m)^" + LIBRARY.pattern + r"[^{}\n]*(?:\{([^}]*)\})?", text):
        names.update(TOKEN.findall(match[1] or ""))
    return names


PATHS = re.compile(r"(\s*(?:pub )?(?:ghost )?(?:use|mod) )([^{;\n]*)(.*)$", re.S)


def turn_line(text, names, kept):
    """A line of code: of the path of an import, a module's name stays."""
    path = PATHS.match(text)
    if not path:
        return turn_text(text, names, kept)
    named, word, alias = path[2].partition(" as ")
    return path[1] + named + word + turn_text(alias, names, kept) + turn_text(path[3], names, kept)


def turn_text(text, names, kept=()):
    return TOKEN.sub(lambda m: m[0] if m[0] in kept else names.get(m[0], m[0]), text)


def turn_antt(text, names, kept):
    """Without comments, but for what stands there between backticks."""
    out = []
    for line in text.split("\n"):
        code, dash, comment = (line, "", "") if not re.match(r"\s*--|.*\s--\s", line) else re.match(r"(.*?)((?:^|(?<=\s))--)(.*)$", line).groups()
        out.append(turn_line(code, names, kept) + dash + re.sub(r"`[^`]*`", lambda m: turn_text(m[0], names), comment))
    return "\n".join(out)


def turn_rt(text, names, kept):
    out = []
    for line in text.split("\n"):
        code, slashes, comment = (line, "", "") if "//" not in line or '"' in line.split("//")[0] else re.match(r"(.*?)(//)(.*)$", line).groups()
        code = re.sub(r'"(?:[^"\\]|\\.)*"|[^"]+|"', lambda m: m[0] if m[0][:1] == '"' else turn_text(m[0], names, kept), code)
        out.append(code + slashes + re.sub(r"`[^`]*`", lambda m: turn_text(m[0], names), comment))
    return "\n".join(out)


def main():
    root = "."
    report = "--report" in sys.argv
    found = declared(root)
    names = mapping(found)
    rust = {old: new for old, new in names.items() if old not in LEMMAS}
    meets = collections.Counter()
    for path in list(files(os.path.join(root, "crates"), ".antt")) + list(files(os.path.join(root, "crates"), ".rt")):
        text = read(path)
        kept = imported(text) & set(names)
        antt = path.endswith(".antt")
        mine = names if antt else rust
        tokens = set(TOKEN.findall(re.sub(r"(?m)(^|\s)--.*$" if antt else r"(?m)//.*$", "", text)))
        news = collections.defaultdict(set)
        for token in tokens:
            if token not in kept:
                news[mine.get(token, token)].add(token)
        for new, olds in sorted(news.items()):
            if len(olds) > 1:
                meets[tuple(sorted(olds))] += 1
                if report:
                    print(f"{path}: {new}: {' '.join(sorted(olds))}")
        if kept and report:
            print(f"{path}: the library's, kept: {' '.join(sorted(kept))}")
        if not report:
            with open(path, "w", encoding="utf-8") as file:
                file.write((turn_antt if antt else turn_rt)(text, mine, kept))
    if report:
        print(len(names), "names;", len(meets), "meetings")
        for olds, n in sorted(meets.items()):
            print(n, *olds)
        return
    for path in list(files(os.path.join(root, "crates"), ".edit")) + list(files(os.path.join(root, ".ci"), ".edit")) + [".ci/pinned"]:
        text = read(path)
        with open(path, "w", encoding="utf-8") as file:
            file.write(turn_text(text, names))
    for path in [p for p in files(root, ".md") if not p.startswith("./docs/landings/")]:
        text = read(path)
        with open(path, "w", encoding="utf-8") as file:
            file.write(re.sub(r"`[^`\n]*`", lambda m: turn_text(m[0], names), text))


if __name__ == "__main__":
    main()
