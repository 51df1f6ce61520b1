#!/usr/bin/env python3
"""Brings the repository's own names in specs/, proofs/ and clauses to today's spelling, after the kit's port.py.

usage: python3 tools/respell.py          at the top of the repository, once, with everything committed
       python3 tools/respell.py --list   says what it would rename, and what would fall together, and writes nothing

Words are in snake case; a dash stays only where it joins the names of two definitions, as in `length-take`. Types, modules,
constructors and what Rust sources declare keep their names. Names of a function's goals, in proofs/.../Proof.antt, are left
to the converter of proofs. Where two names would fall together, EXCEPT says what one of them is called instead.
"""

import glob
import os
import re
import sys

TOKEN = re.compile(r"[^\s(){}\[\];,.`\"|@#:=λ∙]+")
SIGNATURE = re.compile(r"^(\s*)((?:(?:abbrev|unfoldable|pub|record|data|axiom)\s+)*)([^\s:(){}.,;]+)((?:\s*\{[^}]*\}|\s*\([^)]*\))*)\s*:\s")
WALKS = ("Proof.antt", "Answers.antt", "Invariants.antt")

# what falls together with another name, or with a word that the file has from std
EXCEPT = {"first-match": "first_match_is"}
# these stand in crates or places that never meet: a record's field beside a definition elsewhere, a lemma beside a Rust function
APART = {"goes_on", "least_of", "last_line", "one_more"}
# words that are definitions too, and join nothing
PLAIN = {"is", "long", "end"}


def walk(path, root):
    """A function's own proof file, in proofs/MODULE/FUNCTION/."""
    parts = os.path.relpath(path, root).split(os.sep)
    return parts[2] == "proofs" and os.path.basename(path) in WALKS and len(parts) > 4


def sources(root):
    return sorted(p for p in glob.glob(os.path.join(root, "crates", "*", "*", "**", "*"), recursive=True) if p.endswith((".antt", ".rt")) and os.sep + "out" + os.sep not in p)


def read(path):
    with open(path, encoding="utf-8") as f:
        return f.read()


def declared(root):
    """The repository's own names, each with where it stands: (kind, path). A kind is spec, field, lemma or local."""
    names = {}
    for p in sources(root):
        if not p.endswith(".antt") or walk(p, root):
            continue
        inside = False  # of a record's fields
        for line in read(p).split("\n"):
            if re.match(r"^(pub )?(record|data) ", line):
                inside = True
            elif line and not line[0].isspace():
                inside = False
            m = SIGNATURE.match(line)
            if not m or line.strip().startswith(("--", "use ", "module", "|", "│", "λ")) or "=" in line[: m.end(3)]:
                continue
            kind = "field" if inside and m.group(1) else "spec" if "/specs/" in p or "abbrev" in m.group(2) or "unfoldable" in m.group(2) else "lemma"
            names.setdefault(m.group(3), []).append((kind, p))
    return names


def snake(name):
    return re.sub(r"(?<=[a-z0-9])([A-Z])", lambda m: "_" + m.group(1).lower(), name)


def imported(root):
    names = set()
    for p in sources(root):
        for m in re.finditer(r"^(?:ghost )?use ((?!Rattle\.(?:%s)\b)[\w.'-]+)\.\{([^}]*)\}" % "|".join(sorted(os.listdir(os.path.join(root, "crates")))), read(p), re.M):
            for it in m.group(2).split(","):
                names.add(it.strip().split(" as ")[-1].strip())
    return names


def plan(root):
    own, std = declared(root), imported(root)
    words = {n for n in std if re.fullmatch(r"[a-z][a-z0-9_]*", n)} | {snake(n) for n, at in own.items() if any(k == "spec" for k, _ in at) and "-" not in n}
    words -= PLAIN
    to = {}
    for n, at in own.items():
        if n[0].isupper() or not re.match(r"[a-z]", n) or n in std:
            continue
        if "-" not in n:
            new = snake(n)
        elif any(k in ("field", "spec") for k, _ in at):
            new = snake(n).replace("-", "_")
        else:
            new = joined(snake(n).split("-"), words) or snake(n).replace("-", "_")
        new = EXCEPT.get(n, new)
        if new != n:
            to[n] = new
    # a lemma that would have a definition's name gets `_lem`
    groups = {}
    for n in own:
        groups.setdefault(to.get(n, n), []).append(n)
    for new, olds in groups.items():
        if len(olds) > 1 and new not in APART and any(k == "spec" for o in olds for k, _ in own[o]):
            for o in olds:
                if all(k == "lemma" for k, _ in own[o]):
                    to[o] = new + "_lem"
    return own, std, to


def joined(parts, words):
    """The parts as names of definitions, joined by dashes, or None where they are not."""
    if not parts:
        return ""
    for k in range(len(parts), 0, -1):
        first = "_".join(parts[:k])
        if first in words:
            rest = joined(parts[k:], words)
            if rest is not None:
                return first + ("-" + rest if rest else "")
    return None


def clashes(own, std, to, root):
    taken = {}
    for n in own:
        taken.setdefault(to.get(n, n), []).append(n)
    seen = set()
    for p in sources(root):
        if p.endswith(".antt"):
            seen |= set(TOKEN.findall(re.sub(r"--[^\n]*", "", read(p))))
    functions = set()
    for p in sources(root):
        if p.endswith(".rt"):
            functions |= set(re.findall(r"\bfn (\w+)", read(p)))
    said = []
    for new, olds in sorted(taken.items()):
        if len(olds) > 1 and new not in APART:
            said.append(f"{' and '.join(sorted(olds))} fall together: {new}   " + " ".join(sorted({os.path.relpath(p, root) + ':' + k for o in olds for k, p in own[o]}))[:300])
    for n, new in sorted(to.items()):
        if new in std:
            said.append(f"{n} becomes {new}, a word of std")
        elif new in seen and new not in own and new not in functions:
            said.append(f"{n} becomes {new}, which stands somewhere as another thing")
    return said


def turn(text, to, rt):
    def code(s, kebab=True):
        return TOKEN.sub(lambda m: to[m.group(0)] if m.group(0) in to and (kebab or "-" not in m.group(0)) else m.group(0), s)

    out, clause = [], False
    for line in text.split("\n"):
        mark = "//" if rt else "--"
        at = re.search(r"(^|\s)" + re.escape(mark) + r"(\s|$|-)", line)
        head, tail = (line[: at.start(0)], line[at.start(0) :]) if at else (line, "")
        if rt:
            ghost = bool(re.match(r"\s*(ghost use|requires|ensures|ghost )", head)) or clause
            head = code(head, kebab=ghost)
            if re.match(r"\s*(requires|ensures)", line):
                clause = line.count("{") > line.count("}")
            elif clause and re.match(r"\s*\}", line):
                clause = False
        else:
            head = code(head)
        # in a comment: in backticks, in the list of names at a file's head, and camel case anywhere
        listed = re.match(r"\s*--     [a-z]", tail)
        if listed:
            tail = code(tail)
        else:
            tail = re.sub(r"`([^`]*)`", lambda m: "`" + code(m.group(1)) + "`", tail)
            tail = TOKEN.sub(lambda m: to.get(m.group(0), m.group(0)) if re.search(r"[a-z0-9][A-Z]", m.group(0)) else m.group(0), tail)
        out.append(head + tail)
    return "\n".join(out)


def main(argv):
    root = os.getcwd()
    own, std, to = plan(root)
    said = clashes(own, std, to, root)
    if argv == ["--list"]:
        for n in sorted(to):
            print(n, "->", to[n])
    for s in said:
        print("clash:", s, file=sys.stderr)
    if argv == ["--list"] or said:
        return 1 if said else 0
    for p in sources(root):
        old = read(p)
        new = turn(old, to, p.endswith(".rt"))
        if new != old:
            with open(p, "w", encoding="utf-8") as f:
                f.write(new)
    print(f"respell: {len(to)} names")
    return 0


if __name__ == "__main__":
    raise SystemExit(main(sys.argv[1:]))
