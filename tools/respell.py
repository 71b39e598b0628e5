#!/usr/bin/env python3
"""Gives this repository's own specs and lemmas today's spelling.

usage: python3 tools/respell.py      at the repository's top; rewrites the files below crates/ in place

Functions, lemmas, record fields and constructors become snake_case, types and facts (a result `Type 0`) UpperCamelCase,
and a prime becomes an apostrophe. Only what is declared in crates/*/specs and crates/*/proofs turns: the library's names,
the names that Rattle makes and the names of the Rust source stay. In a proof of a function the goals (a type that begins
with `tie.`) and the last `..-spec` stay too: a later tool writes these.

A definition turns in a file where it stands declared, or is imported by a `use` line from a module of this repository, or
is written behind such a module's name; a field also behind a dot and in `record { field = .. }`.
A new name that a file has already for something else (an import, a variable, a parameter, a field) is not taken: the
definition gets another, by ELSE below or by an ending, everywhere. What was decided so is printed.

It was run once, right after port.py had turned the same commit, and proves nothing: rt check decides.
"""

import collections
import os
import re
import sys

# (module without `Rattle.`, old name) -> new name: chosen by hand, where an ending would read badly
ELSE = {
    # edge_at and portal_at are fields and parameters
    ("strip.specs.Reading", "edgeAt"): "nav_edge_at",
    ("strip.specs.Reading", "portalAt"): "nav_portal_at",
    # add_words is what Rattle calls the goal of an addition to `words`
    ("read_polygon_tally.specs.Tally", "addWords"): "words_added",
}
# spellings that stay, with the reason
STAY = {}

RESERVED = set(
    "abbrev axiom as data record deriving module where use mod pub package open unfoldable unfold unfolding ruleset mutual infix infixl infixr elim"
    " let in do Type coe fcoe tcoe hcom com search grind simp rw cc omega assumption ground hlevel first_of tt Unit absurd at by λ".split()
)
WORD = r"[^\s(){}.;,@\"«»\[\]\\]+"
PLAIN = re.compile(r"[^\W\d_][\w'′-]*$")
TOKEN = re.compile(r'(?P<text>"(?:[^"\\\n]|\\.)*")|(?P<comment>(?<![^\s(){}.;,@"«»])--[^\n]*|\{-.*?-\})|(?P<word>' + WORD + r")|(?P<space>\s+)|(?P<other>.)", re.S)
RUST = re.compile(
    r"""(?P<comment>//[^\n]*|/\*.*?\*/)|(?P<text>[bc]?r(?P<h>\#*)".*?"(?P=h)|[bc]?"(?:\\.|[^"\\])*"|b?'(?:\\u\{[0-9a-fA-F_]+\}|\\x..|\\.|[^'\\])')|(?P<word>'?\w+)|(?P<space>\s+)|(?P<other>.)""",
    re.S,
)
CLAUSE = re.compile(r"\b(?:(?:requires|ensures)\s*\*?\s*(?:\w+\s*)?\{|ghost\s*(?:\w+\s*(?::\s*(?:(?:owns|lends)\s*)?|=\s*))?\{)")
GHOST_USE = re.compile(r"\bghost\s+use\b[^;]*;")
USE = re.compile(r"(?<![\w'-])use\s+([^\s{};]+?)(?:\.\{([^}]*)\}|\s+as\s+([^\s;]+))")
HEAD = re.compile(r"^( *)((?:(?:pub|abbrev|unfoldable|axiom|opaque)(?: as)? )*)((?:" + WORD + r" )+?)((?:\{[^}]*\} )*): (.*)$")
BLOCK = re.compile(r"^( *)(?:(?:pub|abbrev|unfoldable|axiom) )*(data|record|ruleset) (" + WORD + r")(.*)$")


def read(path):
    with open(path, encoding="utf-8") as f:
        return f.read()


def files(ends, parts):
    found = []
    for folder, dirs, names in os.walk("crates"):
        dirs.sort()
        bits = folder.split(os.sep)
        if len(bits) > 2 and bits[2] in parts:
            found += [os.path.join(folder, n) for n in sorted(names) if n.endswith(ends)]
    return sorted(found)


def module(path):
    bits = path[: -len(".antt")].split(os.sep)
    return "Rattle." + ".".join(bits[1:])


def quiet(text):
    """The text with comments and strings blanked, as long as it was."""
    return TOKEN.sub(lambda m: re.sub(r"[^\n]", " ", m.group()) if m.group("text") or m.group("comment") else m.group(), text)


def snake(name):
    name = name.replace("′", "'")
    if "-" in name and re.fullmatch(r"[A-Z][A-Z0-9]*(?:[-_][A-Z0-9]+)*'*", name):
        return name.replace("-", "_").lower()
    out = []
    for part in re.split("[-_]", name):
        part = re.sub(r"([A-Z][a-z]+)(\d{2,})(?!\d)", r"\1_\2", part) if re.match("[a-z]", part) else part
        part = re.sub(r"(?<=[a-z0-9₀-₉'])(?=[A-Z])", "_", part)
        part = re.sub(r"(?<=[A-Z])(?=[A-Z][a-z])", "_", part)
        out.append(part.lower() if re.search("[A-Z]", part) else part)
    return "_".join(out)


def camel(name):
    name = name.replace("′", "'")
    return "".join(p[:1].upper() + p[1:] for p in re.split("[-_]", name))


def wanted(name, is_type):
    if not PLAIN.match(name) or not re.search("[A-Za-z]", name) or name in STAY:
        return name
    if is_type:
        return name.replace("′", "'") if name[0].isupper() and "-" not in name else camel(name)
    if name[0].isupper() and "-" not in name:
        return name.replace("′", "'")
    return snake(name)


def result_is_type(text):
    depth, last = 0, 0
    for i, c in enumerate(text):
        depth += (c in "({[") - (c in ")}]")
        if c == "→" and depth == 0:
            last = i + 1
    return bool(re.fullmatch(r"\s*Type(?: [0-9ℓ]\w*)?\s*", text[last:]))


def is_value(text):
    """Whether a type's result is plain data, so that the name is a function and no lemma."""
    last = text[text.rfind("→") + 1 :].strip()
    return not re.search("[≡≢≤<≥>×⊎¬]", last) and last.split(" ")[0].lstrip("(") in ("Bool", "ℕ", "ℤ", "List", "Float", "Option", "SProp", "Floats")


class Name:
    """A definition, a constructor or a field of this repository."""

    def __init__(self, mod, record, old, kind, is_type, public):
        self.mod, self.record, self.old, self.kind, self.is_type, self.public = mod, record, old, kind, is_type, public
        self.new = wanted(old, is_type)
        self.tries, self.why, self.lemma, self.data = 0, [], False, None

    def __repr__(self):
        return f"{self.mod[7:]}.{self.record + '.' if self.record else ''}{self.old}"

    def another(self):
        self.tries += 1
        by_hand = ELSE.get((self.mod[7:], self.old))
        if by_hand and self.new != by_hand:
            self.new = by_hand
            return
        base = wanted(self.old, self.is_type)
        if self.is_type:
            # a predicate whose UpperCamel name is taken stays as it was, but for dashes
            more = [snake(self.old), base + "Is", base + "Fact", base + "Of"]
        elif self.kind == "field":
            more = [base + "_is", base + "_so", base + "_at"]
        elif self.lemma:
            more = [base + "_lem", base + "_fact", base + "_law"]
        else:
            more = [base + "_of", base + "_in", base + "_for"]
        self.new = more[self.tries - 1] if self.tries <= len(more) else base + f"_{self.tries}"


def rank(n):
    """Who keeps a name that two want: a type, then a definition, a field, a lemma; one that others can see before a local one."""
    return (not n.is_type, n.lemma, n.kind == "field", not n.public, repr(n))


def declared(path, text):
    """The names that a file declares, as (name, indent, kind, record, is_type, public, lemma, is goal)."""
    lines = quiet(text).split("\n")
    blocks, rows = [], []
    hand = path.endswith("/Proof.antt")
    for i, line in enumerate(lines):
        if not line.strip():
            continue
        indent = len(line) - len(line.lstrip())
        while blocks and indent <= blocks[-1][0]:
            blocks.pop()
        b = BLOCK.match(line)
        if b and not line.strip().startswith("record {") and b.group(3) not in (":", "="):
            kind, name = b.group(2), b.group(3)
            rows.append((name, "def", None, kind != "ruleset", "pub " in line, False))
            if kind != "ruleset":
                blocks.append((indent, kind, name))
            continue
        m = HEAD.match(line)
        if not m:
            continue
        names = m.group(3).split()
        if names[0] in ("let", "module", "use", "open", "in", "where", "case", "→", "unfolding", "data", "record", "ruleset", "λ", "×", "⊎", "have") or any(not re.match(r"\w", n) and "◌" not in n for n in names):
            continue
        whole = m.group(5)
        for more in lines[i + 1 :]:
            if not more.strip() or len(more) - len(more.lstrip()) <= indent or HEAD.match(more) and not more.lstrip().startswith(("→", "(")):
                break
            whole += " " + more.strip()
        whole = whole.strip()
        if hand and (re.match(r"tie\.", whole) or re.search(r"\.Need-", whole)) or re.search(r"(?<![\w.-])(?:statement|stated\.statement)(?![\w-])", whole):
            continue
        inside = blocks[-1] if blocks else None
        kind = {"record": "field", "data": "constructor"}[inside[1]] if inside else "def"
        is_type = kind == "def" and result_is_type(whole)
        lemma = kind == "def" and not is_type and not re.search(r"abbrev|unfoldable", m.group(2)) and "/proofs/" in path and not is_value(whole)
        for n in names:
            rows.append((n, kind, inside[2] if inside else None, is_type, "pub" in m.group(2).split(), lemma))
    return rows


def used(text, modules, records):
    """What the `use` lines bring: local name -> Name, alias -> module, and the spans of each with its module."""
    names, aliases, spans = {}, {}, []
    for m in USE.finditer(text):
        path = m.group(1)
        own = modules.get(path) or records.get(path)
        if m.group(2) is not None:
            items = []
            for item in m.group(2).split(","):
                bits = item.split()
                if not bits:
                    continue
                base = bits[0].strip("«»")
                target = own.get(base) if own else None
                if target and len(bits) == 1:
                    names[base] = target
            spans.append((m.start(2), m.end(2), own or {}))
        elif own is not None:
            aliases[m.group(3)] = own
        elif own is None and "." in path:
            head, last = path.rsplit(".", 1)
            up = modules.get(head)
            if up and last in up:
                spans.append((m.start(1) + len(head) + 1, m.end(1), up))
    return names, aliases, spans


def clauses(text):
    """The spans of a Rust file that are antt: clauses, ghost blocks and `ghost use` items."""
    masked = RUST.sub(lambda m: " " * len(m.group()) if m.group("comment") or m.group("text") else m.group(), text)
    spans = [m.span() for m in GHOST_USE.finditer(masked)]
    for m in CLAUSE.finditer(masked):
        depth, i = 1, m.end()
        while i < len(masked) and depth:
            depth += (masked[i] == "{") - (masked[i] == "}")
            i += 1
        spans.append((m.end(), i))
    return sorted(spans), masked


def words(text, fns=None):
    """The words of a file that are not behind a dot."""
    found, before = set(), ""
    kinds = TOKEN if fns is None else RUST
    tokens = [m for m in kinds.finditer(text)]
    for i, m in enumerate(tokens):
        if m.group("word"):
            after = tokens[i + 1].group() if i + 1 < len(tokens) else ""
            brought = before in ("::", ":", "{", ",") and re.search(r"\buse\b[^;]*$", text[max(0, m.start() - 300) : m.start()])
            calls = fns is not None and m.group() in fns and (before == "fn" or after in ("(", "::", "<") or brought)
            if before != "." and not calls:
                found.add(m.group())
        if not m.group("space") and not m.group("comment"):
            before = m.group()
    return found


def main():
    if not os.path.isdir("crates"):
        sys.exit("respell: run it at the repository's top")
    antt, rust, edits = files(".antt", ("specs", "proofs")), files(".rt", ("src",)), files(".edit", ("must-fail",))
    text = {p: read(p) for p in antt + rust + edits}
    modules, records, everything = {}, {}, []
    in_file = collections.defaultdict(dict)
    local_fields = collections.defaultdict(dict)
    datas = {}
    for p in antt:
        if p.endswith("/Lib.antt"):
            continue
        mod = module(p)
        modules[mod] = {}
        for name, kind, record, is_type, public, lemma in declared(p, text[p]):
            known = modules[mod].get(name)
            if kind != "field" and known:
                known.is_type = known.is_type or is_type
                in_file[p].setdefault(name, known)
                continue
            n = Name(mod, record if kind == "field" else None, name, kind, is_type, public)
            n.lemma = lemma
            if kind == "constructor":
                datas.setdefault(record, {})[name] = n
            everything.append(n)
            if kind == "field":
                records.setdefault(mod + "." + record, {})[name] = n
                local_fields[p].setdefault(name, []).append(n)
            else:
                modules[mod][name] = n
                in_file[p][name] = n
    # what a module imports with `pub use` is imported from it too
    for _ in range(4):
        for p in antt:
            for m in re.finditer(r"^pub use ([^\s{};]+?)\.\{([^}]*)\}", quiet(text[p]), re.M):
                own = modules.get(m.group(1)) or records.get(m.group(1)) or {}
                for item in m.group(2).split(","):
                    if item.strip() in own and module(p) in modules:
                        modules[module(p)].setdefault(item.strip(), own[item.strip()])
    # a field is one spelling in the whole repository: behind a dot a file does not say which record
    fields = {}
    for n in everything:
        if n.kind == "field":
            fields.setdefault(n.old, []).append(n)
    fns = set(re.findall(r"\bfn\s+(\w+)", "\n".join(text[p] for p in rust)))
    made = {f.replace("_", "-") for f in fns}
    scope = {}
    for p in antt + rust:
        code = text[p]
        if p.endswith(".rt"):
            spans, masked = clauses(code)
            keep = re.sub(r"[^\n]", " ", masked)
            for a, b in spans:
                keep = keep[:a] + masked[a:b] + keep[b:]
            names, aliases, inner = used(keep, modules, records)
            scope[p] = (names, aliases, inner, words(text[p], fns), spans)
        else:
            code = quiet(code)
            names, aliases, inner = used(code, modules, records)
            names = dict(names)
            names.update(in_file[p])
            scope[p] = (names, aliases, inner, words(text[p]), None)
            for old, ns in local_fields[p].items():
                if old in names and names[old] is not ns[0] and wanted(old, False) != old:
                    print(f"look: {p}: {old} is a field and {names[old]}")
    # ---- no two names fall together
    resolved = {}
    for _ in range(12):
        again = set()
        for p in antt + rust:
            names, aliases, inner, has, _spans = scope[p]
            taken = collections.defaultdict(list)
            all_here = {}
            for old, n in names.items():
                all_here[id(n)] = (old, n)
            for old, ns in local_fields[p].items():
                if old not in names:
                    all_here[id(ns[0])] = (old, ns[0])
            for old, n in all_here.values():
                if n.new != old:
                    taken[n.new].append(n)
                    other = names.get(n.new) if p.endswith(".antt") else None
                    if other and other is not n and (other.new != other.old or other.lemma and rank(other) > rank(n)):
                        # the word is a lemma of ours that is in snake case already: the lemma yields
                        if other.new == other.old:
                            again.add(other)
                            other.why.append(f"it is also {n} in {p}")
                    elif n.new in has:
                        again.add(n)
                        n.why.append(f"{n.new} stands in {p}")
                    if n.new in RESERVED:
                        again.add(n)
                        n.why.append(f"{n.new} is reserved")
            for new, ns in taken.items():
                if len(ns) > 1:
                    ns = sorted(ns, key=rank)
                    for n in ns[1:]:
                        again.add(n)
                        n.why.append(f"{new} is also {ns[0]} in {p}")
        for own in list(modules.values()) + list(records.values()):
            firsts = {}
            for n in sorted(own.values(), key=lambda n: (n.new != n.old, rank(n))):
                if n.new in firsts and n.new != n.old:
                    again.add(n)
                    n.why.append(f"{n.new} is also {firsts[n.new]}")
                firsts.setdefault(n.new, n)
        if not again:
            break
        for n in sorted(again, key=repr):
            if n.kind == "field":
                group = fields[n.old]
                if n is not group[0] and group[0] in again:
                    continue
                n.another()
                for g in group:
                    g.new, g.tries = n.new, n.tries
                resolved[repr(n)] = n
            else:
                n.another()
                resolved[repr(n)] = n
    else:
        print("look: some names still fall together:", sorted(map(repr, again))[:20])
    for ns in fields.values():
        for n in ns:
            n.new = ns[0].new
    turn_field = {old: ns[0].new for old, ns in fields.items() if ns[0].new != old}
    by_old = collections.defaultdict(set)
    for n in everything:
        by_old[n.old].add(n.new)
    clear = {old: next(iter(news)) for old, news in by_old.items() if len(news) == 1 and next(iter(news)) != old}

    def comment(body, here):
        def bare(m):
            w = m.group()
            if re.match(r"[a-z]+[0-9]*[A-Z]", w) or "′" in w:
                return here.get(w) or clear.get(w) or w
            return w

        def span(m):
            return re.sub(r"[\w'′-]+", lambda k: here.get(k.group()) or (clear.get(k.group()) if k.group() not in made and k.group() not in fns else None) or k.group(), m.group())

        parts = re.split(r"(`[^`\n]*`)", body)
        return "".join(span(re.match(r".*", s, re.S)) if i % 2 else re.sub(r"[\w'′-]+", bare, s) for i, s in enumerate(parts))

    def is_made(t, q, tokens, i):
        """Whether `q.t` is a step of a run, that Rattle names after the function that is called there."""
        if t not in made:
            return False
        behind = "".join(k.group() for k in tokens[i + 1 : i + 3])
        return q in ("c", "before") or q.startswith(("at-", "after-")) or behind in (".ensures", ".result", ".args", ".given", ".requires", ".before")

    def turn(code, names, aliases, inner, start=0):
        """antt text, its names turned."""
        here = {old: n.new for old, n in names.items() if n.new != old}
        out, done = [], []
        tokens = list(TOKEN.finditer(code))
        for i, m in enumerate(tokens):
            t = m.group()
            if m.group("comment"):
                out.append(comment(t, here))
                continue
            if m.group("word"):
                at = m.start() + start
                of = next((own for a, b, own in inner if a <= at < b), None)
                prev = done[-1] if done else ""
                tight = i > 0 and tokens[i - 1].group() == "." and done and prev == "."
                if of is not None:
                    n = of.get(t)
                    if prev == "as":
                        new = t
                    else:
                        new = n.new if n else t
                elif tight and i > 1 and not tokens[i - 2].group("space"):
                    q = tokens[i - 2].group()
                    deeper = i > 2 and tokens[i - 3].group() == "."
                    if q in aliases and not deeper:
                        n = aliases[q].get(t)
                        new = n.new if n else t
                    elif q in datas and t in datas[q] and (q in names or not names.get(t)):
                        new = datas[q][t].new
                    elif t in turn_field and not is_made(t, q, tokens, i):
                        new = turn_field[t]
                    else:
                        new = t
                else:
                    k = i + 1
                    while k < len(tokens) and tokens[k].group("space"):
                        k += 1
                    follows = tokens[k].group() if k < len(tokens) else ""
                    if t in turn_field and follows == "=" and prev in ("{", ";"):
                        new = turn_field[t]
                    else:
                        new = here.get(t, t)
                out.append(new)
            else:
                out.append(t)
            if not m.group("space"):
                done.append(t)
        return "".join(out)

    changed = 0
    maps = {}
    for p in antt:
        names, aliases, inner, _has, _ = scope[p]
        names = dict(names)
        for old, ns in local_fields[p].items():
            names.setdefault(old, ns[0])
        maps[p] = (names, aliases)
        new = turn(text[p], names, aliases, inner)
        if new != text[p]:
            changed += 1
            with open(p, "w", encoding="utf-8") as f:
                f.write(new)
    for p in rust:
        names, aliases, inner, _has, spans = scope[p]
        maps[p] = (names, aliases)
        here = {old: n.new for old, n in names.items() if n.new != old}
        out, last = [], 0

        def outside(piece):
            return RUST.sub(lambda m: comment(m.group(), here) if m.group("comment") else m.group(), piece)

        for a, b in spans:
            if a < last:
                continue
            out.append(outside(text[p][last:a]))
            out.append(turn(text[p][a:b], names, aliases, inner, a))
            last = b
        out.append(outside(text[p][last:]))
        new = "".join(out)
        if new != text[p]:
            changed += 1
            with open(p, "w", encoding="utf-8") as f:
                f.write(new)
    for p in edits:
        top = os.path.dirname(os.path.dirname(p))
        target, lines = None, []
        for line in text[p].split("\n"):
            m = re.match(r"file:\s*(\S+)", line)
            if m:
                target = os.path.join(top, m.group(1))
            elif target in maps and (target.endswith(".antt") or re.search(r"\b(?:requires|ensures|ghost)\b", line)):
                head = re.match(r"(?:old|new): ?", line)
                h = head.group() if head else ""
                names, aliases = maps[target]
                known = {n.old: n for n in everything if n.old in clear and n.old not in made and re.search("-|[a-z][A-Z]", n.old)}
                line = h + turn(line[len(h) :], {**known, **names}, aliases, [])
            lines.append(line)
        new = "\n".join(lines)
        if new != text[p]:
            changed += 1
            with open(p, "w", encoding="utf-8") as f:
                f.write(new)
    for key in sorted(resolved):
        n = resolved[key]
        print(f"resolved: {key} ({n.kind}) -> {n.new}: {n.why[0]}")
    turned = [n for n in everything if n.new != n.old]
    print(f"{len(turned)} names turned, of {len(everything)} declared; {len(resolved)} got another name than their plain one; {changed} files changed")
    if "--table" in sys.argv:
        for n in sorted(turned, key=repr):
            print(f"{n!r}\t{n.kind}\t{n.new}")
    # ---- each import is declared, and no file imports two equal names
    after = {}
    for p in antt:
        if not p.endswith("/Lib.antt"):
            t = read(p)
            own = {}
            for name, kind, record, *_rest in declared(p, t):
                if kind == "field":
                    after.setdefault(module(p) + "." + record, set()).add(name)
                else:
                    after.setdefault(module(p), set()).add(name)
            for m in re.finditer(r"^pub use [^\s{};]+?\.\{([^}]*)\}", quiet(t), re.M):
                after.setdefault(module(p), set()).update(i.strip() for i in m.group(1).split(","))
            after.setdefault(module(p), set())
    missing = 0
    for p in antt + rust:
        t = read(p)
        t = quiet(t) if p.endswith(".antt") else clauses(t)[1]
        seen = {}
        for m in USE.finditer(t):
            if m.group(2) is None:
                continue
            for item in m.group(2).split(","):
                bits = item.split()
                if not bits:
                    continue
                name, local = bits[0].strip("«»"), bits[-1].strip("«»")
                if m.group(1) in after and not m.group(1).endswith(".Proof") and name not in after[m.group(1)]:
                    print(f"unresolved: {p}: {m.group(1)}.{name}")
                    missing += 1
                if local in seen and seen[local] != m.group(1) and not p.endswith(".rt"):
                    print(f"twice: {p}: {local} from {seen[local]} and {m.group(1)}")
                    missing += 1
                seen[local] = m.group(1)
    print(f"{missing} imports to look at")


if __name__ == "__main__":
    main()
