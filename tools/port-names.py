#!/usr/bin/env python3
"""Spells the repository's own definitions, fields and lemmas as today's Rattle does. Run once, at the top, after the kit's port.py.

usage: tools/port-names.py [--list]

A definition (`abbrev`, `unfoldable`) and a field of a record: words in snake case, `termValue` is `term_value`, `rows-hold` is `rows_hold`.
A lemma: the hyphens between its parts stay, each part in snake case, `allTerms-append` is `all_terms-append`.
Types, modules, and all names of src/ stay. --list writes the table and changes nothing. A name that would meet another stops the run.
"""

import glob
import re
import sys

WORD = re.compile(r'[^\s(){}.;,@"«»]+')
TOP = re.compile(r"^(?P<indent> *)(?:(abbrev|unfoldable) )?(?:pub )?(?:(abbrev|unfoldable) )?(?P<kind>record |data )?(?P<name>[^\s(){}.;,@\"«»:]+)(?:\s*[({][^=]*?[)}])*\s*:\s")
SKIP = ("use ", "mod ", "pub mod ", "pub use ", "--", "ghost ", "open ", "module ", "where", "unfolding")


def snake(part):
    part = part.replace("getD", "get_or").replace("′", "'")
    return re.sub(r"(?<=[a-z0-9])([A-Z])", lambda m: "_" + m.group(1).lower(), part)


def hand_proof(path):
    return path.endswith("/Proof.antt")


def declared(paths):
    """The names that the files declare: definitions, lemmas, and fields of records."""
    words, lemmas, fields = set(), set(), set()
    for p in paths:
        if hand_proof(p):
            continue
        parents = []  # (indent, kind) of the blocks that a line stands in
        with open(p, encoding="utf-8") as f:
            lines = f.read().split("\n")
        for l in lines:
            s = l.strip()
            if not s or s.startswith("--"):
                continue
            indent = len(l) - len(l.lstrip())
            while parents and parents[-1][0] >= indent:
                parents.pop()
            if s.startswith("module "):
                parents.append((indent, "module"))
                continue
            inside = parents[-1][1] if parents else "module"
            if s.startswith(SKIP) or inside == "term":
                continue
            m = TOP.match(l)
            if m:
                name = m.group("name")
                if m.group("kind"):
                    parents.append((indent, m.group("kind").strip()))
                    continue
                if name[0].isupper() or not name[0].isalpha():
                    parents.append((indent, "term"))
                    continue
                if inside in ("record", "data"):
                    if inside == "record":
                        fields.add(name)
                    continue
                (words if m.group(2) or m.group(3) else lemmas).add(name)
                parents.append((indent, "term"))
            else:
                parents.append((indent, "term"))
    return words, lemmas, fields


def table(paths):
    words, lemmas, fields = declared(paths)
    out, field_only = {}, {}
    for n in words:
        out[n] = snake(n).replace("-", "_")
    for n in lemmas - words:
        out[n] = "-".join(snake(x) for x in n.split("-"))
    for n in fields:
        new = snake(n).replace("-", "_")
        if n in out and out[n] != new:
            field_only[n] = new
        else:
            out[n] = new
    return {a: b for a, b in out.items() if a != b}, field_only


def turned(text, names, field_only, rust):
    lines = []
    for l in text.split("\n"):
        code, mark, comment = l, "", ""
        sign = "//" if rust else "--"
        at = re.search(r"(?:^|\s)" + sign, l)
        if at:
            cut = l.index(sign, at.start())
            code, mark, comment = l[:cut], sign, l[cut + len(sign):]

        def one(m):
            w = m.group(0)
            if w in field_only:
                before, after = code[: m.start()], code[m.end():]
                as_field = before.endswith(".") or re.match(r" = ", after) and (re.search(r"[{;] *$", before) or not before.strip()) or (before.strip() == "pub" and before.startswith("  ") and after.startswith(" :"))
                return field_only[w] if as_field else w
            return names.get(w, w)

        code = WORD.sub(one, code)
        comment = WORD.sub(lambda m: names[m.group(0)] if m.group(0) in names and re.search(r"[a-z0-9][A-Z]", m.group(0)) else m.group(0), comment)
        lines.append(code + mark + comment)
    return "\n".join(lines)


def main(argv):
    paths = sorted(glob.glob("crates/*/specs/**/*.antt", recursive=True) + glob.glob("crates/*/proofs/**/*.antt", recursive=True))
    rust = sorted(glob.glob("crates/*/src/**/*.rt", recursive=True))
    names, field_only = table(paths)
    all_words = set()
    for p in paths + rust:
        with open(p, encoding="utf-8") as f:
            all_words |= set(WORD.findall(f.read()))
    met = {a: b for a, b in {**names, **field_only}.items() if b in all_words}
    news = {}
    for a, b in names.items():
        news.setdefault(b, []).append(a)
    twice = {b: a for b, a in news.items() if len(a) > 1}
    if argv == ["--list"]:
        for a, b in sorted(names.items()):
            print(a, b, sep="\t")
        for a, b in sorted(field_only.items()):
            print(a, b, "as a field", sep="\t")
        print("MET", met, file=sys.stderr)
        print("TWICE", twice, file=sys.stderr)
        return 0
    keep = set(KEEP)
    names = {a: b for a, b in names.items() if a not in keep}
    names.update(OTHER)
    for p in paths + rust:
        with open(p, encoding="utf-8") as f:
            text = f.read()
        new = turned(text, names, field_only, p.endswith(".rt"))
        if new != text:
            with open(p, "w", encoding="utf-8") as f:
                f.write(new)
    return 0


# Names that stay, and names that get another spelling since the plain one is taken.
KEEP = []
OTHER = {}

if __name__ == "__main__":
    raise SystemExit(main(sys.argv[1:]))
