#!/usr/bin/env python3
"""Counts the places in src/ that the design pass looks at (docs/DESIGN-PASS.md), point by point.

usage: places.py [-v] [TOP]    -v lists each place; TOP is the top of the checkout, . by default

A place is a line of crates/*/src/*.rt; tests and proofs are not looked at. The patterns find candidates: docs/DESIGN-PASS.md says of each kind what
was changed, and what stays and why.
"""
import collections
import glob
import os
import re
import sys

FN = re.compile(r'^(\s*)(?:pub )?(?:const )?(?:unsafe )?(?:extern "C" )?fn (\w+)')


def functions(text):
    """(name, first line, signature, contract, body) of each function."""
    lines = text.split('\n')
    found = []
    at = 0
    while at < len(lines):
        m = FN.match(lines[at])
        if not m:
            at += 1
            continue
        indent = m.group(1)
        begin = at
        while lines[at] != indent + '{' and not lines[at].rstrip().endswith('{') and not lines[at].rstrip().endswith(';'):
            at += 1
        body_at = at
        if lines[at].rstrip().endswith(';'):
            found.append((m.group(2), begin + 1, '\n'.join(lines[begin:at + 1]), '', ''))
            at += 1
            continue
        while lines[at] != indent + '}':
            at += 1
        head = '\n'.join(lines[begin:body_at + 1])
        cut = re.search(r'\n\s+(requires|ensures)\b', head)
        signature, contract = (head[:cut.start()], head[cut.start():]) if cut else (head, '')
        found.append((m.group(2), begin + 1, signature, contract, '\n'.join(lines[body_at + 1:at])))
        at += 1
    return found


def parameters(signature):
    inside = signature[signature.index('(') + 1:]
    depth, out, word = 1, [], ''
    for c in inside:
        if c in '([<':
            depth += 1
        elif c in ')]>':
            depth -= 1
            if depth == 0:
                break
        if c == ',' and depth == 1:
            out.append(word)
            word = ''
        else:
            word += c
    out.append(word)
    return [re.sub(r'\s+', ' ', p.strip()) for p in out if ':' in p]


def conjuncts(contract):
    """The facts of the `requires` clauses, each by itself."""
    facts = []
    for m in re.finditer(r'requires(?: \w+)? \{(.*?)\}\s*(?=\n\s*(?:requires|ensures)|\n\s*\{|$)', contract, re.S):
        text = re.sub(r'\s+', ' ', m.group(1).strip())
        depth, word = 0, ''
        for c in text:
            if c in '([':
                depth += 1
            elif c in ')]':
                depth -= 1
            if c == '×' and depth == 0:
                facts.append(word.strip())
                word = ''
            else:
                word += c
        facts.append(word.strip())
    out = []
    for f in facts:
        if f.startswith('(') and f.endswith(')') and '×' not in f:
            f = f[1:-1]
        out.append(re.sub(r'\.(old|now|new)\b', '', f))
    return out


def plain(body):
    """A body with its names, numbers and types taken away: twins look the same."""
    body = re.sub(r'//.*', '', body)
    body = re.sub(r'\b\d[\w]*\b', '0', body)
    body = re.sub(r'\b(u8|u16|u32|u64|usize|i64|bool)\b', 'T', body)
    body = re.sub(r'\b[a-zA-Z_]\w*(::\w+)*\b', lambda m: m.group(0) if m.group(0) in
                  ('if', 'else', 'while', 'for', 'in', 'let', 'mut', 'return', 'match', 'true', 'false', 'as', 'T', 'continue') else 'x', body)
    return re.sub(r'\s+', ' ', body).strip()


def main():
    verbose = '-v' in sys.argv
    tops = [a for a in sys.argv[1:] if a != '-v']
    top = tops[0] if tops else '.'
    points = collections.OrderedDict()

    def place(kind, where):
        points.setdefault(kind, []).append(where)

    twins = collections.defaultdict(list)
    facts = collections.defaultdict(list)
    groups = collections.defaultdict(list)
    for path in sorted(glob.glob(os.path.join(top, 'crates/*/src/*.rt'))):
        short = os.path.relpath(path, os.path.join(top, 'crates')).replace('/src/', '/')
        text = open(path).read()
        for n, line in enumerate(text.split('\n'), 1):
            where = f'{short}:{n}  {line.strip()}'
            code = line.split('//')[0]
            if re.match(r'\s+(pub )?(no|what|kind|fault|number|code): (u8|u64),?$', code):
                place('1 a field that is a number for a refusal, a fault, a kind or a state', where)
            if re.match(r'\s+(pub )?(over|ended|faulted|clears|whole|lays): (bool|u64),?$', code):
                place('1 a flag with values beside it', where)
            if re.match(r'\s+NotEnded,', code):
                place('1 an enum of the shape of Option', where)
            if re.match(r'\s+(while|loop)\b', code):
                place('3 a loop that counts or steps by hand (while)', where)
            if re.search(r'int64::(equal|less)\(|\bwide\(|larger\(', code) and not re.search(r'\bfn ', code):
                place('4 a call of a comparison, a maximum or a conversion by hand', where)
            if re.match(r'\s*let mut \w+ = \[', code):
                place('6 a buffer of its own (array of numbers or records)', where)
            if re.match(r'\s+match (opcode|arm|kind|x\.opcode|course)\b', code):
                place('7 a switch on which step to run', where)
        for name, line, signature, contract, body in functions(text):
            where = f'{short}:{line}  {name}'
            if re.search(r'-> u8(\s*\{)?\s*$', signature) and 'bytes' not in signature:
                place('1 a function that answers a number as u8', where)
            if re.search(r'(== 33|return 33|return 255|return 7;|^\s*7$)', body, re.M):
                place('1 a number that stands for none', where)
            arms = re.findall(r'=> (true|false),', body)
            if len(arms) >= 3 and set(arms) == {'true', 'false'}:
                place('4 a match over the variants that answers yes or no', where)
            if re.search(r'^\s*match ', body, re.M) and len(re.findall(r'=> (\d+|n as u64|b as u64|.* as u64),', body)) >= 3:
                place('4 a match over the variants that answers a number', where)
            if len(re.findall(r'if \w+ == \d+ \{\s*return', body)) >= 3:
                place('4 a chain of tests from a number to a value', where)
            if re.match(r'write_(word|digit|digits|decimal|signed|line|value|record|index|register|registers|results|end|text|refused)$', name) and short.startswith('report/') and 'bytes' not in short:
                place('4 a function that prints by hand', where)
            key = plain(body)
            if len(key) > 12:
                twins[key].append(where)
            for f in conjuncts(contract):
                facts[f].append(where)
            ps = parameters(signature)
            for i in range(len(ps)):
                for j in range(i + 1, len(ps)):
                    groups[(ps[i], ps[j])].append(where)
    for key, ws in twins.items():
        if len(ws) > 1:
            place('2 functions alike but for names, numbers and types', f'{len(ws)} like {ws[0]}: ' + ', '.join(w.split("  ")[1] for w in ws[1:]))
    for f, ws in sorted(facts.items(), key=lambda p: -len(p[1])):
        if len(ws) >= 3:
            place('5 a fact in the contracts of three or more functions', f'{len(ws)} times: {f}')
    for g, ws in sorted(groups.items(), key=lambda p: -len(p[1])):
        if len(ws) >= 3:
            place('5 two parameters that travel together in three or more functions', f'{len(ws)} times: {g[0]}, {g[1]}')
    for kind in sorted(points):
        print(f'{len(points[kind]):5}  {kind}')
        if verbose:
            for w in points[kind]:
                print('           ' + w)


main()
