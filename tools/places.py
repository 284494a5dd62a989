#!/usr/bin/env python3
"""Lists the places of the code that a plainer form of the language may replace: `python3 tools/places.py [POINT]`.

Each line is a place, as FILE:LINE and what stands there; the last line of a point is its count. Points:
 1 enums of two variants of which one or both carry a value; bool fields; numbers named as a kind, a status or a step;
   a Result in a Result
 2 pairs of functions whose text is the same but for names and numbers
 3 loops over a range whose variable is an index or goes into one, and `while` loops that count
 4 comparisons, copies and printing by hand, and numbers made of bytes by their indices
 5 facts that stand in the `requires` of three or more functions, and three or more parameters that go together through
   three or more functions
 6 an array or a slice with its length in a field or a parameter beside it
 7 a match on a number that says which step to run, and tables of functions
 8 lines and answers in proofs/, by crate
"""
import difflib
import glob
import os
import re
import sys

ROOT = os.path.join(os.path.dirname(os.path.abspath(__file__)), '..')
KEEP = set('''as break const continue else enum false fn for if impl in let loop match mut pub ref return self Self struct trait
true type use where while Ok Err Some None requires ensures ghost'''.split())


def files():
    return sorted(glob.glob(os.path.join(ROOT, 'crates', '*', 'src', '**', '*.rt'), recursive=True))


def text(path):
    """The file without comments, and without what stands in string literals of several lines."""
    with open(path, encoding='utf-8') as f:
        src = re.sub(r'//[^\n]*', '', f.read())
    return re.sub(r'"(?:[^"\\]|\\.)*"', lambda m: m.group(0) if '\n' not in m.group(0) else '"' + '\n' * m.group(0).count('\n') + '"', src)


def line(src, at):
    return src.count('\n', 0, at) + 1


def name(path):
    return os.path.relpath(path, ROOT)


def block(src, at):
    """The text between the brace at or after `at` and its partner."""
    begin = src.index('{', at)
    depth = 0
    for i in range(begin, len(src)):
        depth += {'{': 1, '}': -1}.get(src[i], 0)
        if depth == 0:
            return src[begin + 1:i]
    return src[begin + 1:]


def functions():
    """Each function with a body: path, line, name, head (up to the contract), contract, body."""
    for path in files():
        src = text(path)
        for m in re.finditer(r'\bfn (\w+)', src):
            depth, i, contract = 0, m.end(), None
            # the head ends at the first brace, semicolon or clause outside of brackets
            while i < len(src):
                c = src[i]
                if c in '([':
                    depth += 1
                elif c in ')]':
                    depth -= 1
                elif depth == 0 and (c in '{;' or re.match(r'\b(requires|ensures)\b', src[i:])):
                    break
                i += 1
            head = src[m.start():i]
            begin = i
            while re.match(r'\s*(requires|ensures)', src[i:]):
                j = src.index('{', i)
                i = j + len(block(src, j)) + 2
            contract = src[begin:i]
            rest = re.match(r'\s*\{', src[i:])
            if rest:
                yield path, line(src, m.start()), m.group(1), head, contract, block(src, i)


def point1():
    for path in files():
        src = text(path)
        for m in re.finditer(r'\benum (\w+)', src):
            variants = [v for v in re.split(r',(?![^({]*[)}])', block(src, m.end())) if v.strip()]
            if len(variants) == 2 and any(re.search(r'[({]', v) for v in variants):
                yield path, line(src, m.start()), 'enum %s of two variants' % m.group(1)
        for m in re.finditer(r'\bstruct (\w+)[^;({]*\{', src):
            for f in re.finditer(r'(\w+): bool,', block(src, m.start())):
                yield path, line(src, m.start()), 'struct %s: %s: bool' % (m.group(1), f.group(1))
        for m in re.finditer(r'\b(kind|status|code|step|mark|keyed|which): (u8|u16|u32|usize|bool)\b', src):
            yield path, line(src, m.start()), m.group(0)
        for m in re.finditer(r'const (\w*KIND|TOKEN|CONFIRMATION): u8', src):
            yield path, line(src, m.start()), m.group(0)
        for m in re.finditer(r'->\s*Result<\s*Result<', src):
            yield path, line(src, m.start()), 'a Result in a Result'
        for m in re.finditer(r'\bunwrap_or\(0\)|=> 0,', src):
            yield path, line(src, m.start()), 'a number for none: ' + m.group(0)


def shape(body):
    out = []
    for t in re.findall(r'\w+|[^\w\s]', body):
        if t in KEEP:
            out.append(t)
        elif re.match(r'\d', t):
            out.append('0')
        elif re.match(r'\w', t):
            out.append('x')
        else:
            out.append(t)
    return out


def point2():
    fs = [(p, n, f, shape(b)) for p, n, f, h, c, b in functions()]
    fs = [f for f in fs if len(f[3]) >= 24]
    for i, a in enumerate(fs):
        for b in fs[i + 1:]:
            if min(len(a[3]), len(b[3])) < 0.85 * max(len(a[3]), len(b[3])):
                continue
            m = difflib.SequenceMatcher(None, a[3], b[3], autojunk=False)
            if m.quick_ratio() > 0.92 and m.ratio() > 0.92:
                yield a[0], a[1], '%s ~ %s:%d %s' % (a[2], name(b[0]), b[1], b[2])


def point3():
    for path in files():
        src = text(path)
        for m in re.finditer(r'\bfor (\w+) in [^{]*?\.\.[^{]*\{', src):
            v, body = m.group(1), block(src, m.end() - 1)
            if not v.startswith('_') and re.search(r'\[[^\]]*\b%s\b|\b%s \*|\* %s\b|\+ %s\b|\b%s \+|\b%s [%%]' % ((v,) * 6), body):
                yield path, line(src, m.start()), src[m.start():m.end() - 1].strip()
        for m in re.finditer(r'\bwhile (?!let)([^{]*)\{', src):
            yield path, line(src, m.start()), m.group(0)[:-1].strip()


def point4():
    for path in files():
        src = text(path)
        for m in re.finditer(r'impl[^{]*\b(PartialEq|Eq|PartialOrd|Ord|Clone|Copy|Hash|Debug) for', src):
            yield path, line(src, m.start()), m.group(0)
        for m in re.finditer(r'from_(le|be)_bytes\(\[\s*\*?\w+\[', src):
            yield path, line(src, m.start()), m.group(0)
        for m in re.finditer(r'\bmatch (?:[^{;]*)\{', src):
            arms = block(src, m.end() - 1)
            words = re.findall(r'=>\s*("|String::from_str|format!)', arms)
            if len(words) >= 2 and len(words) == arms.count('=>') and 'Formatter' not in src[max(0, m.start() - 200):m.start()]:
                yield path, line(src, m.start()), 'words by a match: ' + m.group(0)[:-1].strip()


def facts(contract):
    for m in re.finditer(r'requires\s*(?:\w+\s*)?\{', contract):
        clause = block(contract, m.end() - 1)
        for f in re.split(r'×', clause):
            f = re.sub(r'[()\s]', ' ', f)
            f = re.sub(r'\b[a-z_]+\.(old|now|new)\b', 'v.now', f)
            f = re.sub(r'\b[SK]\.(Store\.|Authenticator\.)?', '', f)
            yield re.sub(r'\s+', ' ', f).strip()


def point5():
    where, takes = {}, []
    for path, n, f, head, contract, body in functions():
        for fact in set(facts(contract)):
            where.setdefault(fact, []).append((path, n))
        inside = head[head.index('('):] if '(' in head else ''
        takes.append((path, n, frozenset(re.findall(r'\b(\w+): [^,)]+', inside))))
    for fact, at in sorted(where.items()):
        if len(at) >= 3 and re.search(r'v\.now|\w\.\w', fact):
            yield at[0][0], at[0][1], '%d functions require: %s' % (len(at), fact)
    # the largest sets of parameters that three or more functions share
    shared = {a[2] & b[2] for a in takes for b in takes if a is not b and len(a[2] & b[2]) >= 3}
    for group in sorted(shared, key=sorted):
        at = [t for t in takes if group <= t[2]]
        if len(at) >= 3 and frozenset.intersection(*[t[2] for t in at]) == group:
            yield at[0][0], at[0][1], '%d functions take: %s' % (len(at), ', '.join(sorted(group)))


def point6():
    for path in files():
        src = text(path)
        for m in re.finditer(r'\bstruct (\w+)[^;({]*\{', src):
            body = block(src, m.start())
            if re.search(r': \[', body) and re.search(r'\b(len|used|count|tag|n|size): u(8|16|size)\b', body):
                yield path, line(src, m.start()), 'struct %s: an array and a length' % m.group(1)
            if len(re.findall(r': Vec<', body)) > 1:
                yield path, line(src, m.start()), 'struct %s: several vectors' % m.group(1)
    for path, n, f, head, contract, body in functions():
        if re.search(r'&(mut )?\[u8[;\]]', head) and re.search(r'\b(len|used|n): u(8|16|size)\b', head):
            yield path, n, 'fn %s: bytes and a length' % f
        for m in re.finditer(r'&\w+\[(0)?\.\.[^\]]*(tag_len|len)\(?', body):
            yield path, n, 'fn %s: the front of a buffer: %s' % (f, m.group(0))


def point7():
    for path in files():
        src = text(path)
        for m in re.finditer(r'\bmatch [^{;]*\{', src):
            if re.match(r'\s*\d+\b', block(src, m.end() - 1)):
                yield path, line(src, m.start()), 'a match on a number: ' + m.group(0)[:-1].strip()
        for m in re.finditer(r'\[\s*fn\(|\bdyn \w+|: fn\(', src):
            yield path, line(src, m.start()), m.group(0)


def point8():
    for crate in sorted(os.listdir(os.path.join(ROOT, 'crates'))):
        lines = answers = 0
        for p in glob.glob(os.path.join(ROOT, 'crates', crate, 'proofs', '**', '*.antt'), recursive=True):
            with open(p, encoding='utf-8') as f:
                src = f.read()
            lines += src.count('\n')
            answers += len(re.findall(r'^pub .*: goal\.', src, re.M))
        if lines:
            yield os.path.join(ROOT, 'crates', crate, 'proofs'), lines, '%d lines, %d answers' % (lines, answers)


POINTS = [point1, point2, point3, point4, point5, point6, point7, point8]


def main():
    wanted = [int(a) for a in sys.argv[1:]] or list(range(1, 9))
    for w in wanted:
        found = list(POINTS[w - 1]())
        for path, n, what in found:
            print('%s:%d: %s' % (name(path), n, what))
        total = sum(n for _, n, _ in found) if w == 8 else len(found)
        print('point %d: %d' % (w, total))


main()
