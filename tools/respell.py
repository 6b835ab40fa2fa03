#!/usr/bin/env python3
"""Respells the repository's own names of definitions and lemmas to today's Rattle: words in snake case, types and modules in camel case.

usage: respell.py [TOP]     run once, after port.py, at the top of the repository

Turned: names in lower camel case in .antt files, clauses, must-fail edits and pages, as blockCount to block_count; names with dashes that a
file of specs/ or proofs/ declares, as accepted-program to accepted_program. A dash stays where it joins the names of two functions, as in
length-bytes_of. Functions of src/, exported names, strings, inputs and outputs stay. Two names that fall together are refused.
"""
import os
import re
import sys

WORD = re.compile(r"[A-Za-z_\u0370-\u03ff\u2100-\u214f\u2260-\u22ff][A-Za-z0-9_'\u0370-\u03ff\u2100-\u214f\u2260-\u22ff]*(?:-[A-Za-z0-9_'\u0370-\u03ff\u2100-\u214f\u2260-\u22ff]+)*")
CAMEL = re.compile(r"^[a-z][a-z0-9_']*[A-Z]")
LIBRARY = {"length", "take", "drop", "append", "get_or", "set_at", "map", "and", "eqb", "ltb", "leb", "cond", "not", "slice_index", "of_z", "to_z", "min", "max", "replicate"}
KEYWORDS = {"module", "open", "use", "pub", "abbrev", "unfoldable", "data", "record", "where", "let", "in", "elim", "mod", "pattern", "infixl", "infixr", "infix"}


def files(top, ends):
    for folder, dirs, names in os.walk(os.path.join(top, "crates")):
        dirs[:] = sorted(d for d in dirs if d != "out")
        for n in sorted(names):
            if n.endswith(ends):
                yield os.path.join(folder, n)


def snake(part):
    """One word between dashes."""
    if not CAMEL.match(part):
        return part
    part = re.sub(r"([a-z0-9'])([A-Z])", r"\1_\2", part)
    part = re.sub(r"([A-Z])([A-Z][a-z])", r"\1_\2", part)
    return part.lower()


def own_file(path):
    """A file of specs/, or of proofs/ itself: not the folder of a function."""
    rest = path.split("/crates/")[1].split("/")
    return rest[1] == "specs" or (rest[1] == "proofs" and len(rest) == 3)


def declared(text):
    """Names that a file declares, each with its kind: 'member' of a record or a constructor, or 'other'."""
    found = {}
    inside = None
    for line in text.splitlines():
        code = line.split("--")[0].rstrip() if line.lstrip().startswith("--") else line
        if not code.strip():
            continue
        indent = len(code) - len(code.lstrip())
        if inside is not None and indent <= inside:
            inside = None
        head = re.match(r"\s*(?:pub )?(?:abbrev |unfoldable )?(?:pub )?(data|record)\s+([^\s(:{]+)", code)
        if head and " where" in code + " " and "=" not in code.split(" where")[0]:
            found[head.group(2)] = "type"
            inside = indent
            continue
        m = re.match(r"\s*(?:\| )?(?:pub )?(?:abbrev |unfoldable )?(?:pub )?((?:[^\s:(){}=]+ )+): ", code + " ")
        if m:
            names = m.group(1).split()
            if any(n in KEYWORDS for n in names):
                continue
            for n in names:
                if WORD.fullmatch(n):
                    found[n] = "member" if inside is not None else "other"
    return found


def mapping(top):
    kinds = {}
    for path in files(top, (".antt",)):
        if own_file(path):
            with open(path, encoding="utf-8") as f:
                for n, k in declared(f.read()).items():
                    kinds.setdefault(n, set()).add(k)
    functions = {n for n, k in kinds.items() if "-" not in n and k & {"other"}} | LIBRARY
    turned = {}
    for n, k in sorted(kinds.items()):
        if n[0].isupper():
            turned[n] = "".join(w[0].upper() + w[1:] for w in re.split("[-_]", n)) if re.search("[-_]", n) else n
            continue
        parts = n.split("-")
        new = snake(parts[0])
        for left, right in zip(parts, parts[1:]):
            joins = "member" not in k and left in functions and right in functions
            new += ("-" if joins else "_") + snake(right)
        turned[n] = new
    return kinds, turned


def part_collisions(kinds, turned):
    """Where two declared names fall together, a definition keeps the plain name: a member gets `its_` before it, a lemma `_lem` behind it."""
    back = {}
    for n, new in turned.items():
        back.setdefault(new, []).append(n)
    for new, olds in sorted(back.items()):
        if len(olds) < 2:
            continue
        keeps = sorted(olds, key=lambda n: (not CAMEL.match(n), "member" in kinds[n], "-" in n, n))[0]
        for n in olds:
            if n == keeps:
                continue
            turned[n] = "its_" + new if "member" in kinds[n] else new + "_lem"
            if turned[n] in back:
                raise SystemExit(f"{n}: {turned[n]} is taken")
            print(f"look: {n} ({'/'.join(sorted(kinds[n]))}) is {turned[n]}, beside {keeps} ({'/'.join(sorted(kinds[keeps]))}), now {new}")


def snake_word(word):
    return "-".join(snake(p) for p in word.split("-"))


def respell(text, turned, dashes):
    def one(m):
        w = m.group(0)
        if w in turned and (dashes or "-" not in w):
            return turned[w]
        return snake_word(w)

    return WORD.sub(one, text)


def respell_antt(text, turned):
    out = []
    for line in text.splitlines(keepends=True):
        m = re.match(r"^(.*?)((?:^|(?<=\s))--(?:\s|$).*)?$", line.rstrip("\n"), re.S)
        code, comment = m.group(1), m.group(2) or ""
        end = "\n" if line.endswith("\n") else ""
        out.append(respell(code, turned, True) + respell(comment, turned, False) + end)
    return "".join(out)


CLAUSE = re.compile(r"^\s*(?:requires|ensures|ghost|invariant|decreases)\b")


def respell_rt(text, turned):
    """ghost use lines and clauses; in comments names in camel case alone; code stays."""
    out = []
    depth = 0
    for line in text.splitlines(keepends=True):
        if line.lstrip().startswith("//"):
            out.append(respell(line, turned, False))
            continue
        if depth > 0 or CLAUSE.match(line):
            out.append(respell(line, turned, True))
            depth += line.count("{") - line.count("}")
            if depth < 0:
                depth = 0
            continue
        out.append(line)
    return "".join(out)


def respell_edit(text, turned):
    out = []
    for line in text.splitlines(keepends=True):
        if line.startswith("#"):
            out.append(respell(line, turned, False))
        elif line.startswith(("old:", "new:")) and ("antt" in text.split("file:")[1].split("\n")[0] or "ensures" in line or "requires" in line):
            out.append(respell(line, turned, True))
        else:
            out.append(line)
    return "".join(out)


def respell_page(text, turned):
    """Names in camel case between backquotes."""
    return re.sub(r"`[^`\n]*`", lambda m: respell(m.group(0), {k: v for k, v in turned.items() if "-" not in k}, False) if "/" not in m.group(0) or True else m.group(0), text)


def write(path, old, new):
    if old != new:
        with open(path, "w", encoding="utf-8") as f:
            f.write(new)
        return 1
    return 0


def main(argv):
    top = os.path.abspath(argv[0] if argv else ".")
    kinds, turned = mapping(top)
    part_collisions(kinds, turned)
    changed = 0
    for path in files(top, (".antt", ".rt", ".edit")):
        with open(path, encoding="utf-8") as f:
            old = f.read()
        if path.endswith(".antt"):
            new = respell_antt(old, turned)
        elif path.endswith(".rt"):
            new = respell_rt(old, turned)
        else:
            new = respell_edit(old, turned)
        changed += write(path, old, new)
    pages = [os.path.join(top, p) for p in ("README.md", "CONTRIBUTING.md")]
    pages += [os.path.join(top, "docs", p) for p in sorted(os.listdir(os.path.join(top, "docs"))) if p.endswith(".md")]
    for path in pages:
        if os.path.exists(path):
            with open(path, encoding="utf-8") as f:
                old = f.read()
            changed += write(path, old, respell_page(old, turned))
    print(f"respell: {sum(1 for a, b in turned.items() if a != b)} names, {changed} files changed")
    return 0


if __name__ == "__main__":
    raise SystemExit(main(sys.argv[1:]))
