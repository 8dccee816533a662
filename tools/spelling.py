#!/usr/bin/env python3
"""Brings the repository's own definitions and lemmas to today's spelling, after the kit's port.py: words in snake case,
facts and types in camel case, a dash between two names and an underscore before a plain word.

usage: python3 tools/spelling.py [FOLDER]    rewrites crates/*/specs, crates/*/proofs and the clauses of crates/*/src below
                                             FOLDER, the current folder if none is given; prints each name that it left
       python3 tools/spelling.py --names [FOLDER]   prints old and new name of each, and changes nothing
"""

import collections
import os
import re
import sys

# a name of antt, as a token
TOKEN = r"[^\s(){}\[\].,;«»:`\"]+"
# words of the library that a name may be joined to by a dash
WORDS = set("""length append cons nil take drop map fold reverse set get get_or index mul add sub div mod pow zero suc one two
three eq ne lt le min max not and or if none some true false pos neg sum replicate concat flatten cond row at if land lor
xor shl shr fst snd id refl sym some ok err unsigned_abs nat_abs even odd""".split())
# names that keep a spelling of the standard or of Rust, or would fall together with another
KEPT = {"and_T": "and_T"}


def files(root):
    for folder, dirs, names in os.walk(os.path.join(root, "crates")):
        dirs[:] = sorted(d for d in dirs if d not in ("out", "must-fail"))
        for n in sorted(names):
            if n.endswith((".antt", ".rt")):
                yield os.path.join(folder, n)


def is_shared(path):
    """Whether a file is one of specs/ or of the lemmas of proofs/, and not the proof of a function."""
    parts = path.split(os.sep)
    if "specs" in parts:
        return True
    return "proofs" in parts and parts[-1] not in ("Proof.antt", "Answers.antt", "Invariants.antt")


def snake(word):
    """camelCase in snake case: lowDelay, numbersHQ, atLD0."""
    if not re.match(r"[a-zà-ÿ]", word) or word == "getD":
        return "get_or" if word == "getD" else word
    word = re.sub(r"([A-Z]+)([A-Z][a-z])", r"\1_\2", word)
    return re.sub(r"(?<=[a-z0-9])([A-Z]+)", r"_\1", word).lower()


DECL = re.compile(r"^(\s*)((?:(?:abbrev|unfoldable|pub|record|data)\s+)*)(" + TOKEN + r")((?:\s*[({][^=]*?[)}])*)\s*:(?:\s+(.*))?$")


def declarations(path):
    """Each name that a file declares, whether it is a definition, and whether it is a type or a fact."""
    with open(path, encoding="utf-8") as f:
        lines = f.read().split("\n")
    for i, line in enumerate(lines):
        if line.lstrip().startswith(("--", "use ", "module ", "let ")):
            continue
        m = DECL.match(line)
        if not m or m.group(3) in ("let", "in", "where", "elim"):
            continue
        kind, rest = m.group(2), m.group(5) or ""
        j = i + 1
        while j < len(lines) and lines[j].startswith(m.group(1) + " ") and not DECL.match(lines[j]):
            rest += " " + lines[j].strip()
            j += 1
        fact = bool(re.search(r"Type \d\b", rest.split("→")[-1])) or "record" in kind or "data" in kind
        yield m.group(3), bool(re.search(r"abbrev|unfoldable|record|data", kind)), fact, len(m.group(1))


def plan(root):
    """The new name of each declared name that has one."""
    defs, all_names, facts, where = set(), set(), set(), collections.defaultdict(set)
    for p in files(root):
        if not p.endswith(".antt"):
            continue
        for name, definition, fact, depth in declarations(p):
            all_names.add(name)
            where[name].add(p)
            if definition:
                defs.add(name)
            if fact:
                facts.add(name)
    functions = set()
    for p in files(root):
        if p.endswith(".rt"):
            with open(p, encoding="utf-8") as f:
                functions |= set(re.findall(r"\bfn (\w+)", f.read()))
    joined = WORDS | functions | {snake(d) for d in defs if "-" not in d} | {d for d in defs if "-" not in d}
    new = {}
    for name in sorted(all_names):
        if name in KEPT:
            if KEPT[name] != name:
                new[name] = KEPT[name]
            continue
        if not re.match(r"[A-Za-z]", name) or re.search(r"[◌·]", name):
            continue
        shared = any(is_shared(p) for p in where[name])
        parts = [p for p in name.split("-")]
        parts = [snake(p) for p in parts]
        if name in facts and "-" not in name and parts[0][0].islower() and not all(len(x) == 1 for x in parts):
            parts = ["".join(w.capitalize() for w in parts[0].split("_"))]
        if shared and all(parts) and all(re.match(r"[a-zA-Z0-9_']+$", p) for p in parts):
            text = parts[0]
            for a, b in zip(parts, parts[1:]):
                text += ("-" if a.rstrip("'") in joined and b.rstrip("'") in joined or a[0].isupper() or b[0].isupper() else "_") + b
        else:
            text = "-".join(parts)
        if text != name:
            new[name] = text
    # a lemma that would have its definition's name gets _lem
    groups = collections.defaultdict(set)
    for name in all_names:
        groups[new.get(name, name)].add(name)
    for text, names in groups.items():
        if len(names) > 1:
            first = sorted(names, key=lambda n: (n not in defs, n != text, n))[0]
            for n in names - {first}:
                new[n] = text + "_lem"
    return new, all_names, functions, where


def tokens_of(text):
    return set(re.findall(TOKEN, text))


def main(argv):
    show = "--names" in argv
    argv = [a for a in argv if a != "--names"]
    root = argv[0] if argv else "."
    new, all_names, functions, where = plan(root)
    texts = {}
    for p in files(root):
        with open(p, encoding="utf-8") as f:
            texts[p] = f.read()
    seen = set()
    for t in texts.values():
        seen |= tokens_of(t)
    into = collections.defaultdict(list)
    for a, b in new.items():
        into[b].append(a)
    left = []
    for b, olds in sorted(into.items()):
        if len(olds) > 1 or b in all_names or b in functions or b in seen:
            why = "also " + " ".join(olds) if len(olds) > 1 else "declared" if b in all_names else "a function" if b in functions else "a token"
            left.append((b, olds, why))
    if show:
        for a in sorted(new):
            print(a, new[a], sep="\t")
        for b, olds, why in left:
            print("falls together:", " ".join(olds), "->", b, "(" + why + ")")
        return 0
    camel = {a: b for a, b in new.items() if re.search(r"[a-z0-9][A-Z]", a)}
    dashed = {a: b for a, b in new.items() if a not in camel}
    for p, text in texts.items():
        if p.endswith(".rt"):
            # no name of code is in camel case, and a dash joins names in clauses alone
            out = []
            for line in text.split("\n"):
                names = new if re.match(r"\s*(ghost use|requires|ensures|ghost)\b", line) else camel
                out.append(re.sub(TOKEN, lambda m: names.get(m.group(0), m.group(0)), line))
            changed = "\n".join(out)
        else:
            own = tokens_of(text) & set(dashed)
            inside = {n for n, *_ in declarations(p)}
            used = set()
            for m in re.finditer(r"use Rattle\.\S*\.\{([^}]*)\}", text):
                used |= {x.strip() for x in m.group(1).split(",")}
            names = dict(camel)
            names.update({n: dashed[n] for n in own if n in inside or n in used})
            fields = {n: dashed[n] for n in own}

            def put(m):
                t = m.group(0)
                before = text[m.start() - 1:m.start()]
                if t not in camel and text[text.rfind("\n", 0, m.start()) + 1:m.start()].lstrip().startswith("--"):
                    return t
                if t in names:
                    return names[t]
                if t in fields and (before == "." or re.match(r"\s*=\s", text[m.end():m.end() + 3])):
                    return fields[t]
                return t

            changed = re.sub(TOKEN, put, text)
        if changed != text:
            with open(p, "w", encoding="utf-8") as f:
                f.write(changed)
    for b, olds, why in left:
        print("falls together:", " ".join(olds), "->", b, "(" + why + ")")
    return 0


if __name__ == "__main__":
    raise SystemExit(main(sys.argv[1:]))
