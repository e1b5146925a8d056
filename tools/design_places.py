#!/usr/bin/env python3
"""Prints the places of docs/DESIGN-PASS.md in a checkout, each as `point file:line what`.

    tools/design_places.py [CHECKOUT]            every place, by point, file and line
    tools/design_places.py [CHECKOUT] --table    how many there are, by crate and point, and by point and sort

It reads crates/*/src/*.rt, and crates/*/proofs/ for point 8, as text, and runs nothing. Each sort has its rule in the function that
finds it. The parameters and the result of a function exported to C (`extern "C"`) are no places: they are C's.
"""
import collections
import difflib
import itertools
import os
import re
import sys

NUMBERS = {"u8": 8, "u16": 16, "u32": 32, "u64": 64, "usize": 64, "i64": 64, "i32": 32}
WORDS = r"[A-Za-z_]\w*"


# ---- the text of a file: comments and strings blanked, lengths kept

def blanked(text):
    def blank(m):
        return re.sub(r"[^\n]", " ", m.group(0))
    return re.sub(r'//[^\n]*|b?"(?:[^"\\\n]|\\.)*"', lambda m: blank(m) if m.group(0).startswith("//")
                  else '"' + " " * (len(m.group(0)) - 2) + '"', text)


def closing(code, at):
    """The place of the bracket that closes the one at `at`."""
    pairs, depth = {"(": ")", "[": "]", "{": "}"}, 0
    opener, closer = code[at], pairs[code[at]]
    for i in range(at, len(code)):
        if code[i] == opener:
            depth += 1
        elif code[i] == closer:
            depth -= 1
            if depth == 0:
                return i
    return len(code) - 1


def parted(text, mark=","):
    """The parts of a list, split where no bracket is open."""
    parts, depth, last = [], 0, ""
    for c in text:
        if c in "([{<":
            depth += 1
        if c in ")]}" or c == ">" and last[-1:] not in ("-", "="):
            depth -= 1
        if c == mark and depth <= 0:
            parts.append(last)
            last = ""
        else:
            last += c
    return [p.strip() for p in parts + [last] if p.strip()]


def behind_generics(code, at):
    """The place behind `<..>`, if that stands here."""
    if code[at:at + 1] != "<":
        return at
    depth = 0
    for i in range(at, len(code)):
        if code[i] == "<":
            depth += 1
        if code[i] == ">" and code[i - 1] not in "-=":
            depth -= 1
            if depth == 0:
                return i + 1
    return at


class Fn:
    pass


class File:
    def __init__(self, top, path):
        self.path = os.path.relpath(path, top)
        self.crate = self.path.split(os.sep)[1]
        self.text = open(path, encoding="utf-8").read()
        self.code = blanked(self.text)
        self.lines = self.text.split("\n")
        self.fns, self.structs, self.enums, self.consts = [], [], [], []
        self.read()

    def line(self, at):
        return self.code.count("\n", 0, at) + 1

    def comment(self, line):
        """The comment above a line, as one text."""
        said, i = [], line - 2
        while i >= 0 and (self.lines[i].strip().startswith("//") or self.lines[i].strip().startswith("#[")):
            if self.lines[i].strip().startswith("//"):
                said.insert(0, self.lines[i].strip()[2:].strip())
            i -= 1
        return " ".join(said)

    def read(self):
        code = self.code
        impls = []
        for m in re.finditer(r"^(?:pub )?(?:impl|trait)\b", code, re.M):
            open_at = code.index("{", m.end())
            head = re.sub(r"<.*?>", "", code[behind_generics(code, m.end()):open_at])
            name = re.search(r"(?:\bfor\s+)?(\w+)\s*(?:where\b.*)?$", head.strip(), re.S)
            impls.append((m.start(), closing(code, open_at), name.group(1) if name else None))
        for m in re.finditer(r"\bfn (\w+)", code):
            begin = behind_generics(code, m.end())
            if code[begin:begin + 1] != "(":
                continue
            f = Fn()
            f.file, f.name, f.at = self, m.group(1), m.start()
            f.line = self.line(m.start())
            end = closing(code, begin)
            f.owner = next((o for a, b, o in impls if a < m.start() < b), None)
            head = code[code.rfind("\n", 0, m.start()) + 1:m.start()]
            f.exported = "extern" in head
            f.params = []
            for p in parted(code[begin + 1:end]):
                if p in ("self", "&self", "&mut self"):
                    f.params.append(("self", f.owner))
                else:
                    name, _, kind = p.partition(":")
                    f.params.append((name.strip().replace("mut ", ""), " ".join(re.sub(r"'\w+ ?", "", kind).split())))
            rest = end + 1
            n = re.match(r"\s*->\s*((?:[^{\n])+?)\s*(?=\{|\n|$)", code[rest:])
            f.result = n.group(1) if n else ""
            if n:
                rest += n.end()
            n = re.match(r"\s*where\b.*?(?=\brequires\b|\bensures\b|\{|;)", code[rest:], re.S)
            rest += n.end() if n else 0
            f.requires, f.ensures = [], []
            while True:
                n = re.match(r"\s*(requires|ensures)\b[^{]*\{", code[rest:])
                if not n:
                    break
                stop = closing(code, rest + n.end() - 1)
                getattr(f, n.group(1)).append((self.line(rest + n.end() - 1), " ".join(code[rest + n.end():stop].split())))
                rest = stop + 1
            if re.match(r"\s*;", code[rest:]) or "{" not in code[rest:]:
                continue
            start = code.index("{", rest)
            f.start, f.end = start, closing(code, start)
            f.body = code[start + 1:f.end]
            f.flat = " ".join(f.body.split())
            f.comment = self.comment(self.line(code.rfind("\n", 0, m.start()) + 1))
            self.fns.append(f)
        for m in re.finditer(r"\bstruct (\w+)(?:<[^{;]*>)? \{", code):
            end, fields = closing(code, m.end() - 1), []
            for n in re.finditer(r"(?:pub )?(\w+): ([^,\n]+|\[[^\]]*\]),?\n", code[m.end():end + 1]):
                fields.append((n.group(1), n.group(2).strip().rstrip(","), self.line(m.end() + n.start())))
            self.structs.append((m.group(1), fields, self.line(m.start())))
        for m in re.finditer(r"\benum (\w+)(?:<[^{;]*>)? \{", code):
            end = closing(code, m.end() - 1)
            self.enums.append((m.group(1), [re.sub(r"\s", "", v) for v in parted(code[m.end():end])], self.line(m.start())))
        for m in re.finditer(r"\bconst (\w+): ([^=]+?) =\s*([^;]+);", code):
            owner = next((o for a, b, o in impls if a < m.start() < b), None)
            self.consts.append((m.group(1), m.group(2), " ".join(m.group(3).split()), self.line(m.start()), owner))


class Tree:
    def __init__(self, top):
        self.top = top
        self.files = []
        crates = os.path.join(top, "crates")
        for crate in sorted(os.listdir(crates)):
            for base, dirs, names in os.walk(os.path.join(crates, crate, "src")):
                dirs.sort()
                self.files += [File(top, os.path.join(base, n)) for n in sorted(names) if n.endswith(".rt")]
        self.fns = [f for file in self.files for f in file.fns]
        self.structs = {(file.crate, s[0]): s[1] for file in self.files for s in file.structs}
        self.by_struct = collections.defaultdict(list)
        for (crate, name), fields in self.structs.items():
            self.by_struct[name].append((crate, fields))
        self.enums = {e[0]: e[1] for file in self.files for e in file.enums}
        self.by_fn = collections.defaultdict(list)
        for f in self.fns:
            self.by_fn[f.name].append(f)
        self.consts = {}
        for file in self.files:
            for name, kind, *_ in file.consts:
                self.consts.setdefault(name, kind)
        self.places = []

    def say(self, point, file, line, sort, what):
        self.places.append((point, file.path, line, sort, what))

    def own(self):
        return [f for f in self.fns if not f.exported]


# ---- the types of expressions, as far as casts need them

def plain(kind):
    return re.sub(r"^&(mut )?", "", kind or "").strip()


def element(kind):
    m = re.match(r"\[(.*?)(?:;[^;\]]*)?\]$", plain(kind) or "")
    return m.group(1).strip() if m else None


class Types:
    def __init__(self, tree, f):
        self.tree, self.f = tree, f
        self.names = {n: k for n, k in f.params}
        body = f.body
        found = []
        for m in re.finditer(r"\blet (?:mut )?(\w+)(?:: ([^=;]+?))? = ([^;]+);", body):
            found.append((m.start(), m.group(1), m.group(2), m.group(3)))
        for m in re.finditer(r"\bfor (\w+) in ", body):
            found.append((m.start(), m.group(1), "usize", None))
        for m in re.finditer(r"\bfor (?:\((\w+), )?&?(\w+)\)? in &?(?:mut )?([\w.]+?)(?:\.iter\(\))?(\.enumerate\(\))? \{", body):
            if m.group(1) and m.group(4):
                found.append((m.start(), m.group(1), "usize", None))
            if bool(m.group(1)) == bool(m.group(4)):
                found.append((m.start() + 1, m.group(2), None, m.group(3) + "[0]"))
        for m in re.finditer(r"\bif let (?:Some|Ok)\((\w+)\) = ([^{]+?) \{|\bmatch ([^{]+?) \{\s*(?:Some|Ok)\((\w+)\) =>", body):
            found.append((m.start(), m.group(1) or m.group(4), None, (m.group(2) or m.group(3)) + ".unwrap()"))
        for m in re.finditer(r"\b([\w.]+)\.map\(\|(\w+)\|", body):
            found.append((m.start(), m.group(2), None, m.group(1) + ".unwrap()"))
        for m in re.finditer(r"(\w+)::(\w+)\(([\w, ]+)\) =>", body):
            if m.group(1) in tree.enums:
                for v in tree.enums[m.group(1)]:
                    if v.startswith(m.group(2) + "("):
                        for name, kind in zip(parted(m.group(3)), parted(v[len(m.group(2)) + 1:-1])):
                            found.append((m.start(), name, kind, None))
        for _, name, kind, value in sorted(found, key=lambda x: x[0]):
            got = kind or self.of(" ".join(value.split()))
            if got:
                self.names[name] = got

    def field(self, kind, name):
        for crate, fields in self.tree.by_struct.get(plain(kind), []):
            for n, k, _ in fields:
                if n == name:
                    return k
        return None

    def call(self, path, owner=None):
        name = path.split("::")[-1]
        got = [f for f in self.tree.by_fn.get(name, []) if owner is None or f.owner == owner]
        near = [f for f in got if f.file.crate == self.f.file.crate]
        if "::" in path:
            module = path.split("::")[-2]
            near = [f for f in got if module in (os.path.basename(f.file.path)[:-3], f.file.crate, f.owner)] or near
        kinds = {f.result for f in (near or got)}
        return kinds.pop() if len(kinds) == 1 else None

    def of(self, e):
        e = e.strip()
        m = re.match(r".* as (\w+)$", e)
        if m and e.count("(") == e.count(")"):
            return m.group(1)
        parts, depth, last = [], 0, ""
        for token in re.findall(r"<=|>=|==|!=|&&|\|\||::|[^\s\w]|\w+", e):
            if token in "([{":
                depth += 1
            if depth == 0 and token in ("<", ">", "<=", ">=", "==", "!=", "&&", "||"):
                return "bool"
            if depth == 0 and token in ("+", "-", "*", "/", "%") and last:
                parts.append(last)
                last = ""
            else:
                last += " as " if token == "as" else token
            if token in ")]}":
                depth -= 1
        parts.append(last)
        if len(parts) > 1:
            kinds = [self.of(p) for p in parts if not re.fullmatch(r"[\d_]+", p)]
            return next((k for k in kinds if k), None)
        return self.atom(e)

    def atom(self, e):
        e = e.replace(" ", "") if " as " not in e else e
        if e.startswith("(") and closing(e, 0) == len(e) - 1:
            return self.of(e[1:-1])
        m = re.match(r"(\w+(?:::\w+)*)", e)
        if not m:
            m = re.match(r"&?(?:mut )?\[(\w+);", e)
            if e.startswith("["):
                inner = re.match(r"\[\d+(\w*)", e)
                return "[%s; 0]" % (inner.group(1) or "?") if inner else None
            return None
        path, rest = m.group(1), e[m.end():]
        if rest.startswith("("):
            kind = path.split("::")[0] if re.fullmatch(r"(?:%s)::from" % "|".join(NUMBERS), path) else self.call(path)
            rest = rest[closing(rest, 0) + 1:]
        elif path in self.names:
            kind = self.names[path]
        else:
            kind = self.tree.consts.get(path.split("::")[-1])
            n = re.fullmatch(r"\d[\d_]*(u8|u32|u64|usize)", path)
            if n:
                kind = n.group(1)
        while rest and kind:
            if rest.startswith("["):
                stop = closing(rest, 0)
                kind = kind if ".." in rest[:stop] else element(kind)
                rest = rest[stop + 1:]
            elif rest.startswith("."):
                n = re.match(r"\.(\w+)", rest)
                rest = rest[n.end():]
                if rest.startswith("("):
                    rest = rest[closing(rest, 0) + 1:]
                    held = re.match(r"(?:Option|Result)<([^<>,]*)", plain(kind))
                    if n.group(1) in ("unwrap", "unwrap_or") and held:
                        kind = held.group(1)
                        continue
                    kind = "usize" if n.group(1) == "len" else kind if n.group(1) in ("min", "max") else self.call(n.group(1), plain(kind))
                else:
                    kind = self.field(kind, n.group(1))
            else:
                return None
        return kind


def cast_source(body, at):
    """The expression that stands before ` as ` at this place."""
    i = at
    while i > 0:
        c = body[i - 1]
        if c in ")]":
            depth, j = 0, i - 1
            while j >= 0:
                if body[j] in ")]":
                    depth += 1
                if body[j] in "([":
                    depth -= 1
                if depth == 0:
                    break
                j -= 1
            i = j
        elif re.match(r"[\w.:]", c):
            i -= 1
        else:
            break
    return body[i:at]


# ---- 1: enums of the shape of Option or Result, flags, numbers for kinds and refusals

KINDLY = r"(?:\w+\.)*(?:kind|phase|kinds\[\w+\]|kinds\[[^\]]*\])"


def kind_constants(tree):
    """Constants of numbers that are compared with a kind or a phase, are stored as one, or name such a constant again."""
    code = " ".join(" ".join(file.code.split()) for file in tree.files)
    marked = set(re.findall(KINDLY + r" [!=]= (?:\w+::)*([A-Z][A-Z_]+)\b", code))
    marked |= set(re.findall(r"\bphase: (?:\w+::)*([A-Z][A-Z_]+)\b", code))
    marked |= set(re.findall(r"of_number\([^)]*\) [!=]= (?:\w+::)*([A-Z][A-Z_]+)\b", code))
    for file in tree.files:
        for name, kind, value, _, _ in file.consts:
            if value.split("::")[-1] in marked and "::" in value:
                marked.add(name)
            if name in marked and "::" in value:
                marked.add(value.split("::")[-1])
    return marked


def refusal_names(tree):
    return {c[0] for file in tree.files if file.crate == "engine_refusals" for c in file.consts if c[1] == "u8"}


def is_refusal(value):
    return "engine_refusals::" in value


def refusing(tree, result):
    """Functions of this result that give a refusal's number: they return a refusal's constant, or what such a function gives."""
    names = refusal_names(tree) | {c[0] for file in tree.files for c in file.consts if is_refusal(c[2])}
    one = r"(?:engine_refusals::\w+|(?:\w+::)*(?:%s))" % "|".join(sorted(names)) if names else r"engine_refusals::\w+"
    found = set()
    while True:
        calls = "|".join(sorted({f.name for f in found})) or "$^"
        more = {f for f in tree.own() if f.result == result and f not in found and re.search(
            r"(?:return %s;|return \w+\.number;|(?:^|; |\} )(?:\w+::)*(?:%s)\([^;]*\)$)" % (one, calls), f.flat)}
        if not more:
            return found
        found |= more


def hosting(tree):
    """Functions whose result is a value or 2^64 less a refusal's number: host_number, and what gives what it gives."""
    found = {f for f in tree.own() if f.name == "host_number"}
    while True:
        calls = "|".join(sorted({f.name for f in found}))
        crates = {f.file.crate for f in found}
        more = {f for f in tree.own() if f.result == "u64" and f not in found and re.search(
            r"(?:^|; |\} |return |=> )(?:\w+::)*(?:%s)\([^;]*\)(?:[,;]|$)" % calls, f.flat)
            and any(c in f.file.code for c in ("host_numbers", "host_number", "crate::", "replayed"))}
        if not more:
            return found
        found |= more


def point_1(tree):
    marked = kind_constants(tree)
    for file in tree.files:
        for name, kind, value, line, owner in file.consts:
            if kind == "u8" and (file.crate == "engine_refusals" or is_refusal(value)):
                tree.say(1, file, line, "refusal as a number", "constant %s: u8" % name)
            elif kind in NUMBERS and name in marked:
                tree.say(1, file, line, "kind or phase as a number", "constant %s: %s" % (name, kind))
        for name, variants, line in file.enums:
            bare = [v for v in variants if "(" not in v and "{" not in v]
            if len(variants) == 2 and len(bare) == 1:
                tree.say(1, file, line, "own Option or Result", "enum %s" % name)
        for name, fields, line in file.structs:
            for field, kind, at in fields:
                if field == "number" and kind == "u8":
                    tree.say(1, file, at, "refusal as a number", "field %s.number: u8" % name)
                if field in ("kind", "phase", "kinds") and (kind in NUMBERS or element(kind) in NUMBERS):
                    tree.say(1, file, at, "kind or phase as a number", "field %s.%s: %s" % (name, field, kind))
                if kind == "bool" and len(fields) > 1:
                    tree.say(1, file, at, "flag with a value beside", "field %s.%s: bool" % (name, field))
    for f in tree.own():
        for name, kind in f.params:
            if (name, kind) == ("number", "u8"):
                tree.say(1, f.file, f.line, "refusal as a number", "parameter number: u8 of %s" % f.name)
            if name in ("kind", "phase", "kinds", "seat", "wanted") and (plain(kind) in NUMBERS or element(kind) in NUMBERS):
                tree.say(1, f.file, f.line, "kind or phase as a number", "parameter %s: %s of %s" % (name, kind, f.name))
        if f.result in NUMBERS and re.search(r"return (?:%s);|\b\w+\.(?:kind|phase)$" % "|".join(marked), f.flat):
            tree.say(1, f.file, f.line, "kind or phase as a number", "result %s of %s" % (f.result, f.name))
    for f in refusing(tree, "u8"):
        tree.say(1, f.file, f.line, "refusal as a number", "result u8 of %s" % f.name)
    for f in hosting(tree):
        tree.say(1, f.file, f.line, "refusal as a number", "result u64 of %s, a value or 2^64 less a refusal's number" % f.name)
    # a literal for a kind: compared with one, or handed to a parameter or a field of that name
    for f in tree.fns:
        for m in re.finditer(KINDLY + r" (?:[!=]=|<=?) (\d+)\b", f.body):
            line = f.file.line(f.start + 1 + m.start())
            tree.say(1, f.file, line, "kind or phase as a number", "literal, %s" % " ".join(m.group(0).split()))
        for m in re.finditer(r"\bkind: (\d+)\b", f.body):
            tree.say(1, f.file, f.file.line(f.start + 1 + m.start()), "kind or phase as a number", "literal, kind: %s" % m.group(1))
        for m in re.finditer(r"\bmatch (?:\w+\.)*kind \{", f.body):
            end = closing(f.body, m.end() - 1)
            for n in re.finditer(r"(?<=[\s{])(\d+) =>", f.body[m.end():end]):
                tree.say(1, f.file, f.file.line(f.start + 1 + m.end() + n.start()), "kind or phase as a number", "literal, arm %s of match kind" % n.group(1))
        for m in re.finditer(r"((?:\w+::)*)(\w+)\(", f.body):
            called = tree.by_fn.get(m.group(2), [])
            near = [c for c in called if c.file.crate == f.file.crate] or called
            if m.group(1):
                module = m.group(1).split("::")[-2]
                near = [c for c in called if module in (os.path.basename(c.file.path)[:-3], c.file.crate, c.owner)] or near
            if not near:
                continue
            names = [n for n, _ in near[0].params if n != "self"]
            if "kind" not in names:
                continue
            stop = closing(f.body, m.end() - 1)
            args = parted(f.body[m.end():stop])
            at = names.index("kind")
            if at < len(args) and re.fullmatch(r"\d+", args[at]):
                tree.say(1, f.file, f.file.line(f.start + 1 + m.start()), "kind or phase as a number", "literal %s as the kind of %s" % (args[at], m.group(2)))
    # a number that stands for none: the greatest of its type, given out as a whole, or the 0 that a comment names so
    for file in tree.files:
        for name, kind, value, line, _ in file.consts:
            if kind in NUMBERS and re.fullmatch(r"0x[f_]+|[\d_]+", value) and int(value, 0) == 2 ** NUMBERS[kind] - 1:
                code = " ".join(" ".join(g.code.split()) for g in tree.files)
                if re.search(r"(?:return|\w+ =|\w+:) (?:\w+::)*%s[;, ]" % name, re.sub(r"const %s: [^;]*;" % name, "", code)):
                    tree.say(1, file, line, "number or nothing for none", "constant %s: %s" % (name, kind))
    none = re.compile(r"\b0 (?:where|for (?:no|a|an)|of a|while|likewise|in the place|before there)\b|\bthe kind is 0\b"
                      r"|all is zero|zero past the end|nothing where|\bwhere \w+ is 0\b|\b0 is none\b|\bthat is none\b|\ba 0 ends\b")
    for file in tree.files:
        for name, kind, _, line, _ in file.consts:
            if none.search(file.comment(line)):
                tree.say(1, file, line, "number or nothing for none", "constant %s: %s" % (name, none.search(file.comment(line)).group(0)))
        for name, fields, line in file.structs:
            if none.search(file.comment(line)):
                tree.say(1, file, line, "number or nothing for none", "struct %s: %s" % (name, none.search(file.comment(line)).group(0)))
    for f in tree.own():
        if none.search(f.comment) and f.result and f.result != "bool" and not f.result.startswith(("Option<", "Result<")):
            tree.say(1, f.file, f.line, "number or nothing for none", "result %s of %s: %s" % (f.result, f.name, none.search(f.comment).group(0)))


# ---- 2: twins

def tokens_of(f, calls):
    """Names of parameters and locals by their order, types, sizes and constants as one word each; names of called functions and of fields
    stay unless `calls`."""
    names = {}
    for n, _ in f.params:
        names.setdefault(n, "v%d" % len(names))
    for m in re.finditer(r"\blet (?:mut )?(\w+)|\bfor (\w+) in", f.body):
        names.setdefault(m.group(1) or m.group(2), "v%d" % len(names))
    got, functions = [], {}
    code = ", ".join(k for _, k in f.params) + " -> " + f.result + " { " + f.flat + " }"
    words = re.findall(r"[A-Za-z_]\w*|\d[\w_]*|::|[<>=!]=|[^\s\w]", code)
    i = 0
    while i < len(words):
        w, after, before = words[i], words[i + 1] if i + 1 < len(words) else "", got[-1] if got else ""
        if after == "::":
            i += 2
            continue
        if before == ".":
            got.append(w if not calls else "x")
        elif re.fullmatch(r"\d\w*|[A-Z][A-Z_0-9]+", w):
            got.append("N")
        elif w in NUMBERS:
            got.append("T")
        elif re.match(r"[A-Z]", w):
            got.append("S")
        elif w in names and after != "(":
            got.append(names[w])
        elif after == "(" and w not in ("if", "while", "return", "match"):
            got.append(functions.setdefault(w, "f%d" % len(functions)) if calls else w)
        else:
            got.append(w)
        i += 1
    return tuple(got)


def clauses(f):
    return tuple(t for _, t in f.requires) + tuple(t for _, t in f.ensures)


# How much of two functions is alike where they count as nearly alike. Their operators are the same in any case.
NEAR = 0.88
OPERATORS = set("+-*/%<>!") | {"==", "!=", "<=", ">="}


def point_2(tree):
    paired = set()
    by = collections.defaultdict(list)
    for f in tree.fns:
        by[(f.name, tuple(f.params), f.result, clauses(f))].append(f)
    for group in by.values():
        if len({f.file.crate for f in group}) > 1 and (clauses(group[0]) or len({f.flat for f in group}) == 1):
            f = group[0]
            paired |= {(g.file.path, g.line) for g in group}
            tree.say(2, f.file, f.line, "function again in another crate", "%s of %s" % (f.name, ", ".join(sorted(g.file.crate for g in group))))
    left = [f for f in tree.fns if (f.file.path, f.line) not in paired]
    groups = collections.defaultdict(list)
    for f in left:
        words = tokens_of(f, False)
        if len(words) - words.index("{") >= 9:
            groups[words].append(f)
    same = []
    for g in groups.values():
        while g:
            first = g[0]
            alike = [f for f in g if f.file is first.file or said(f) and said(f) == said(first) or not f.ensures and f.name == first.name]
            g = [f for f in g if f not in alike]
            if len(alike) > 1:
                same.append(alike)
    used = set()
    for g in same:
        used |= {id(f) for f in g}
        tree.say(2, g[0].file, g[0].line, "alike but for types, sizes and constants", named(g))
    words = {id(f): tokens_of(f, True) for f in left}
    big = [f for f in left if len(words[id(f)]) >= 35]
    linked = []
    for a, b in itertools.combinations(big, 2):
        x, y = words[id(a)], words[id(b)]
        if id(a) in used and id(b) in used:
            continue
        if sorted(w for w in x if w in OPERATORS) != sorted(w for w in y if w in OPERATORS):
            continue
        m = difflib.SequenceMatcher(None, x, y, autojunk=False)
        if m.real_quick_ratio() >= NEAR and m.quick_ratio() >= NEAR and m.ratio() >= NEAR:
            linked.append((a, b))
    near = []
    for a, b in linked:
        hit = [g for g in near if a in g or b in g]
        joined = {a, b}.union(*hit) if hit else {a, b}
        near = [g for g in near if g not in hit] + [joined]
    for g in near:
        g = sorted(g, key=lambda f: (f.file.path, f.line))
        tree.say(2, g[0].file, g[0].line, "nearly alike", named(g))
    shapes = collections.defaultdict(list)
    for file in tree.files:
        for name, fields, line in file.structs:
            if len(fields) < 2:
                continue
            shape = tuple("T" if k in NUMBERS else "[T]" if element(k) in NUMBERS else "bool" if k == "bool" else "S" for _, k, _ in fields)
            shapes[shape].append((file, line, name, {n for n, _, _ in fields}))
    for shape, got in shapes.items():
        while got:
            first = got[0]
            group = [g for g in got if 2 * len(g[3] & first[3]) >= len(g[3])]
            got = [g for g in got if g not in group]
            if len(group) > 1:
                tree.say(2, first[0], first[1], "structs alike but for types", ", ".join("%s::%s" % (g[0].crate, g[2]) for g in group))


def said(f):
    """What a function ensures, its parameters by their order."""
    text = " ; ".join(t for _, t in f.ensures)
    for i, (n, _) in enumerate(f.params):
        text = re.sub(r"\b%s\b" % n, "v%d" % i, text)
    return text


def named(group):
    return ", ".join("%s::%s" % (f.file.crate, f.name) for f in group)


# ---- 3: loops

def loops(f):
    for m in re.finditer(r"\bwhile ([^{]+?) \{", f.body):
        end = closing(f.body, m.end() - 1)
        yield m, " ".join(m.group(1).split()), f.body[m.end():end]


def point_3(tree):
    for f in tree.fns:
        for m, test, body in loops(f):
            words = set(re.findall(r"\w+", test))
            steps = {n for n in re.findall(r"\b(\w+) [+-]= 1;", body)}
            sort = "while that counts an index" if words & steps else "another while"
            tree.say(3, f.file, f.file.line(f.start + 1 + m.start()), sort, "while %s, in %s" % (test, f.name))


# ---- 4: equality, order, copying, conversion, printing by hand; casts that widen

def point_4(tree):
    for f in tree.own():
        flat = f.flat
        e = r"([\w.:]+(?:\[\w+\])?)"
        pick = re.search(r"if \(?%s(?: as \w+)?\)? <=? %s(?: as \w+)? \{ return (?:\d+ \* )?(?:\1|\2)(?: as \w+)?; \} (?:\d+ \* )?(?:\1|\2|[A-Z]\w+)(?: as \w+)?$" % (e, e), flat)
        if not pick:
            pick = re.search(r"if %s < %s \{ (?:\2|\w+) = \1; \}" % (e, e), flat)
        if pick:
            tree.say(4, f.file, f.line, "least or greatest by hand", f.name)
        if re.search(r"if (\S+) != (\S+) \{ if \1 < \2 \{", flat):
            tree.say(4, f.file, f.line, "order by hand", f.name)
        for m, test, body in loops(f):
            rest = re.sub(r"if [^{]*\{ return [^;]*; \}", "", " ".join(body.split()))
            parts = [s.strip() for s in rest.split(";") if s.strip()]
            moves = [s for s in parts if re.fullmatch(r"[\w.]+\[[^\]]*\] = [\w.]+\[[^\]]*\](?: as \w+)?", s)]
            others = [s for s in parts if s not in moves and not re.fullmatch(r"[\w.]+ (?:[+-]= [\w.]+|= \w+)", s)]
            if moves and not others:
                tree.say(4, f.file, f.file.line(f.start + 1 + m.start()), "copy by a loop", f.name)
        for m in re.finditer(r"\b([A-Z]\w+) \{", f.body):
            inner = f.body[m.end():closing(f.body, m.end() - 1)]
            taken = collections.Counter(n.group(2) for n in re.finditer(r"\b(\w+): (\w+)\.\1\b,", inner))
            if any(k >= 3 for k in taken.values()):
                tree.say(4, f.file, f.file.line(f.start + 1 + m.start()), "fields copied one by one", "%s, in %s" % (m.group(1), f.name))
        runs = re.finditer(r"(?:\b\w+\.\w+(?:\[\w+\])? = (?!true\b|false\b|\d)(\w+)(?:\.\w+)?;\s*){3,}", f.body)
        for m in runs:
            if len(re.findall(r"\b\w+\.(\w+)s?(?:\[\w+\])? = (?:\w+\.)", m.group(0))) >= 1:
                tree.say(4, f.file, f.file.line(f.start + 1 + m.start()), "fields copied one by one", f.name)
        digits = re.search(r"(?<![\w.])(?:48|55|57|65|70)(?![\w.])", flat) and re.search(r"\bu8\b", flat + " " + " ".join(k for _, k in f.params))
        if digits:
            tree.say(4, f.file, f.line, "digits by hand", f.name)
        given = [p for p in f.params if p[0] != "self"]
        if len(given) == 1 and len(f.params) == 1 and f.result in NUMBERS:
            name, kind = given[0]
            by_as = kind in NUMBERS and kind != f.result and re.search(r"\b%s\b[^;{]*\bas %s\b" % (name, f.result), flat)
            marks = kind == "bool" and re.fullmatch(r"if %s \{ return 1; \} 0" % name, flat)
            if (by_as or marks) and not pick and not digits:
                tree.say(4, f.file, f.line, "conversion by hand", "%s, %s to %s" % (f.name, kind, f.result))
        if f.result in tree.enums and given and all(k in NUMBERS for _, k in given):
            if len(set(re.findall(r"\b%s::(\w+)" % f.result, flat))) >= 2:
                tree.say(4, f.file, f.line, "conversion by hand", "%s, numbers to %s" % (f.name, f.result))
        if re.search(r"/ 256 % 256\b|\* 256 \+", flat):
            tree.say(4, f.file, f.line, "conversion by hand", "%s, a number and its bytes" % f.name)
        kinds = dict(f.params)
        if any("Print" in k for k in kinds.values()) and f.name.startswith("write"):
            tree.say(4, f.file, f.line, "printing by hand", f.name)
        if f.name.startswith("put_") and kinds.get("out") == "&mut [u8]" and kinds.get("at") == "usize" and not digits:
            tree.say(4, f.file, f.line, "printing by hand", f.name)
    for f in tree.fns:
        types = Types(tree, f)
        for m in re.finditer(r"\s+as (\w+)\b", f.body):
            source = " ".join(cast_source(f.body, m.start()).split())
            kind = plain(types.of(source) or "")
            size = {"bool": 1}.get(kind, NUMBERS.get(kind))
            if kind in tree.enums or kind == "Self":
                size = NUMBERS[m.group(1)]  # the number of a case is no narrower type
            if size is None:
                size = 0 if re.fullmatch(r"\d+", source) else None
            line = f.file.line(f.start + 1 + m.start())
            if size is None:
                print("no type found: %s:%d %s" % (f.file.path, line, source), file=sys.stderr)
            elif size < NUMBERS[m.group(1)]:
                tree.say(4, f.file, line, "cast that widens", "%s: %s as %s" % (source, kind, m.group(1)))


# ---- 5: parameters that travel together, facts repeated in requires

def point_5(tree):
    given = {f: frozenset((n, k) for n, k in f.params if n != "self" and "Print" not in k) for f in tree.own()}
    given = {f: s for f, s in given.items() if len(s) >= 3}
    shared = {a & b for a, b in itertools.combinations(given.values(), 2)}
    shared |= {a & b for a, b in itertools.combinations(sorted(shared, key=sorted), 2) if len(a & b) >= 3}
    shared = {s: n for s in shared if len(s) >= 3 for n in [sum(s <= t for t in given.values())] if n >= 3}
    for f, own in given.items():
        groups = [s for s in shared if s <= own]
        if groups:
            best = max(groups, key=lambda s: (len(s), shared[s], sorted(s)))
            text = ", ".join(n for n, k in f.params if (n, k) in best)
            tree.say(5, f.file, f.line, "parameters together", "(%s) of %s, with %d others" % (text, f.name, shared[best] - 1))
    facts = collections.defaultdict(list)
    for f in tree.own():
        for line, text in f.requires:
            for fact in parted(text, "×"):
                for part in parted(fact.strip("() ") if fact.startswith("(") and closing(fact, 0) == len(fact) - 1 else fact, "×"):
                    facts[part].append((f, line))
    for fact, who in sorted(facts.items()):
        if len({f for f, _ in who}) >= 3:
            for f, line in who:
                tree.say(5, f.file, line, "fact of three or more requires", "%s, in %s" % (fact, f.name))


# ---- 6: buffers with a length beside, parallel arrays, searches by hand, flat rows, fields by number

LENGTHS = ("count", "filled", "len", "used", "fixed", "n")


def is_array(kind):
    return bool(re.match(r"(?:&(?:mut )?)?\[", kind or ""))


def read_together(tree):
    """Pairs of arrays that some function reads at the same index."""
    pairs = set()
    for f in tree.fns:
        at = collections.defaultdict(set)
        for m in re.finditer(r"\b(\w+)\[(\w+(?: [+-] \d+)?)\](?!\s*=[^=])", f.body):
            if not re.fullmatch(r"\d+", m.group(2)):
                at[m.group(2)].add(m.group(1))
        for names in at.values():
            pairs |= {frozenset(p) for p in itertools.combinations(sorted(names), 2)}
    return pairs


def point_6(tree):
    pairs = read_together(tree)
    for file in tree.files:
        for name, fields, line in file.structs:
            arrays = [(n, k) for n, k, _ in fields if is_array(k)]
            counts = [n for n, k, _ in fields if k == "usize" and n in LENGTHS + ("at",)]
            if arrays and counts:
                tree.say(6, file, line, "array with a length beside", "struct %s: %s" % (name, ", ".join(counts)))
            par = {o for (n, k), (m, l) in itertools.combinations(arrays, 2)
                   if k.split(";")[-1] == l.split(";")[-1] and frozenset((n, m)) in pairs for o in (n, m)}
            if par:
                tree.say(6, file, line, "parallel arrays", "struct %s: %s" % (name, ", ".join(n for n, _ in arrays if n in par)))
            if {element(k) == "usize" for _, k in arrays} == {True, False}:
                tree.say(6, file, line, "rows in one flat array", "struct %s" % name)
        for name, kind, value, line, _ in file.consts:
            if kind == "usize" and any(re.search(r"\[%s\]" % name, g.code) for g in tree.files):
                tree.say(6, file, line, "field by a number", "constant %s" % name)
    for f in tree.own():
        arrays = [(n, k) for n, k in f.params if is_array(k)]
        counts = [n for n, k in f.params if k == "usize" and n in LENGTHS]
        places = [n for n, k in f.params if k == "usize" and n in ("at", "end", "from", "start")]
        if arrays and counts:
            tree.say(6, f.file, f.line, "array with a length beside", "parameters of %s: %s" % (f.name, ", ".join(counts)))
        elif places and any(k.startswith("&mut [") for _, k in arrays):
            tree.say(6, f.file, f.line, "buffer with a place beside", "parameters of %s: %s" % (f.name, ", ".join(places)))
        par = {n for (a, _), (b, _) in itertools.combinations(arrays, 2) if frozenset((a, b)) in pairs for n in (a, b)}
        if par:
            tree.say(6, f.file, f.line, "parallel arrays", "parameters of %s: %s" % (f.name, ", ".join(n for n, _ in arrays if n in par)))
        for m in re.finditer(r"\b(?:while [^{]+|for \w+ in [^{]+) \{", f.body):
            body = f.body[m.end():closing(f.body, m.end() - 1)]
            taken = set(re.findall(r"let (\w+) = [\w.]+\[[^\]]+\];", body))
            for n in re.finditer(r"if ([^{]+) \{", body):
                test, then = n.group(1), body[n.end():closing(body, n.end() - 1)]
                reads = re.search(r"\w\[[^\]]*\]", test) or set(re.findall(r"\w+", test)) & taken
                if reads and re.search(r"\breturn\b", then) and "return false" not in then and re.search(r"==|<", test) and "(" not in test.replace("(s", ""):
                    tree.say(6, f.file, f.file.line(f.start + 1 + m.start()), "search by hand", f.name)
                    break


# ---- 7: steps chosen by a kind or a flag

def point_7(tree):
    for f in tree.fns:
        calls = lambda text: set(re.findall(r"\b(?!if\b|match\b|return\b)[a-z]\w*\(", text))
        said = False
        for m in re.finditer(r"\bmatch ((?:\w+\.)*(?:kind|seat|phase)) \{", f.body):
            arms = f.body[m.end():closing(f.body, m.end() - 1)]
            steps = [a for a in re.findall(r"=> ([^\n]*)", arms) if calls(a)]
            if len(steps) >= 2:
                tree.say(7, f.file, f.file.line(f.start + 1 + m.start()), "step chosen by a kind", "match %s, in %s" % (m.group(1), f.name))
                said = True
        tests = []
        for m in re.finditer(r"\bif ([^{]*?) \{", f.body):
            end = closing(f.body, m.end() - 1)
            tests.append((m, " ".join(m.group(1).split()), f.body[m.end():end], f.body[end + 1:]))
        kinded = [t for t in tests if re.search(KINDLY.replace("|phase", "") + r" [!=]= [1-9]", t[1]) and (calls(t[2]) or calls(t[3]))]
        if kinded and not said:
            tree.say(7, f.file, f.file.line(f.start + 1 + kinded[0][0].start()), "step chosen by a kind", "if %s, in %s" % (kinded[0][1], f.name))
        flags = {n for n, k in f.params if k == "bool"}
        for m, test, then, after in tests:
            if test.lstrip("!") in flags and calls(then) and re.search(r"\breturn\b", then) and calls(after) and calls(then) != calls(after):
                tree.say(7, f.file, f.file.line(f.start + 1 + m.start()), "step chosen by a flag", "if %s, in %s" % (test, f.name))


# ---- 8: proofs

def point_8(tree):
    for file in sorted({f.crate for f in tree.files} | {d for d in os.listdir(os.path.join(tree.top, "crates"))}):
        base = os.path.join(tree.top, "crates", file, "proofs")
        for folder, dirs, names in os.walk(base):
            dirs.sort()
            for n in sorted(names):
                if not n.endswith(".antt"):
                    continue
                path = os.path.join(folder, n)
                lines = open(path, encoding="utf-8").read().split("\n")
                where = os.path.relpath(path, tree.top)
                if n == "Answers.antt":
                    tree.places.append((8, where, 1, "file of answers", ""))
                    for i, line in enumerate(lines, 1):
                        m = re.match(r"pub ([^\s:]+) :", line)
                        if m:
                            tree.places.append((8, where, i, "answer", m.group(1)))
                elif n != "Invariants.antt":
                    tree.places.append((8, where, 1, "lemma file", ""))


# ---- output

def table(tree):
    crates = []
    counts = collections.Counter()
    sorts = collections.Counter()
    for point, path, _, sort, _ in tree.places:
        crate = path.split(os.sep)[1]
        counts[(crate, point)] += point != 8
        counts[(crate, sort)] += 1
        sorts[(point, sort)] += 1
    order = [line.split(":")[0].split()[0] for line in open(os.path.join(tree.top, "crates.txt")) if line.strip() and not line.startswith("#")]
    points = [1, 2, 3, 4, 5, 6, 7]
    eights = ["file of answers", "answer", "lemma file"]
    print("| Crate | %s | Answers.antt | answers | lemma files |" % " | ".join(map(str, points)))
    print("|---|" + "---|" * 10)
    total = collections.Counter()
    for crate in order:
        row = [counts[(crate, p)] for p in points] + [counts[(crate, e)] for e in eights]
        for i, n in enumerate(row):
            total[i] += n
        if any(row):
            print("| %s | %s |" % (crate, " | ".join(map(str, row))))
    print("| all | %s |" % " | ".join(str(total[i]) for i in range(10)))
    print()
    for (point, sort), n in sorted(sorts.items()):
        print("%d %4d %s" % (point, n, sort))


def main():
    args = [a for a in sys.argv[1:] if not a.startswith("--")]
    top = os.path.abspath(args[0] if args else os.path.join(os.path.dirname(os.path.abspath(__file__)), ".."))
    tree = Tree(top)
    for point in (point_1, point_2, point_3, point_4, point_5, point_6, point_7, point_8):
        point(tree)
    tree.places = sorted(set(tree.places))
    if "--table" in sys.argv:
        table(tree)
        return
    for point, path, line, sort, what in tree.places:
        print(("%d %s:%d %s: %s" % (point, path, line, sort, what)).rstrip(": "))


if __name__ == "__main__":
    main()
