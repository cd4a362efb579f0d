#!/usr/bin/env python3
"""Lists the places in crates/*/src that docs/DESIGN-PASS.md counts, point by point: `python3 tools/places.py [-v] [POINT ..]`."""
import glob
import re
import sys
from collections import Counter, defaultdict

FILES = sorted(glob.glob('crates/*/src/**/*.rt', recursive=True))
TEXT = {f: open(f, encoding='utf-8').read() for f in FILES}


def code(line):
    """A line without its comment."""
    return line.split('//')[0]


def lines(pattern):
    """Each place in the code where the pattern matches."""
    out = []
    for f, text in TEXT.items():
        if f.startswith('crates/streams') and '#[cfg(test)]' in text:
            text = text[:text.index('#[cfg(test)]')]
        for n, line in enumerate(text.split('\n'), 1):
            if 'ghost use' in line or re.match(r'\s*(requires|ensures|→|≡)', line):
                continue
            for m in re.finditer(pattern, code(line)):
                out.append((f, n, line.strip()))
    return out


def enums():
    """The enums: file, line, name, variants with what they hold."""
    for f, text in TEXT.items():
        for m in re.finditer(r'\benum (\w+) \{(.*?)\n\}', text, re.S):
            body = re.sub(r'//.*', '', m.group(2))
            variants = re.findall(r'^    (\w+)(\s*[({=]?)', body, re.M)
            yield f, text[:m.start()].count('\n') + 1, m.group(1), [(v, k.strip()) for v, k in variants]


def option_like():
    """Enums of the shape of Option or Result: of two cases at most one holds something, or a case is a refusal with its number."""
    out = []
    for f, n, name, vs in enums():
        holds = [v for v, k in vs if k in '({' and k]
        refusal = any(v in ('Refused', 'Draws', 'Failed') and k == '(' for v, k in vs)
        if refusal or (len(vs) == 2 and len(holds) == 1) or (len(vs) == 2 and not holds and vs[1][0] == 'Unmapped'):
            out.append((f, n, name + ': ' + ', '.join(v for v, _ in vs)))
    return out


def functions():
    """The functions: file, line, name, parameters, clauses."""
    for f, text in TEXT.items():
        for m in re.finditer(r'\bfn (\w+)(?:<[^(]*>)?\((.*?)\)(.*?)\n\s*\{', text, re.S):
            yield f, text[:m.start()].count('\n') + 1, m.group(1), m.group(2), m.group(3)


def travelling():
    """Parameters that stand together in three functions or more."""
    groups = [('sig', 'symbols', 'counts'), ('s', 'index'), ('kinds', 'sources', 'masks', 'vars', 'types'), ('sources', 'masks'),
              ('start', 'len'), ('out', 'from'), ('out', 'at'), ('symbols', 'els'), ('from', 'end'), ('from', 'to')]
    out = []
    for g in groups:
        for f, n, name, params, _ in functions():
            names = re.findall(r'(?:^|,)\s*(?:mut )?(\w+):', params)
            if all(x in names for x in g):
                out.append((f, n, '%s: %s' % (', '.join(g), name)))
    return out


def facts():
    """Facts that stand in the requires of three functions or more."""
    where = defaultdict(list)
    for f, n, name, _, clauses in functions():
        for m in re.finditer(r'requires (?:\w+ )?\{(.*?)\}\s*(?=requires|ensures|$)', clauses, re.S):
            for part in m.group(1).split('×'):
                word = re.match(r'[\s(]*([A-Z]\w*)', part)
                if word:
                    where[word.group(1)].append((f, n, name))
    return [(f, n, '%s: %s' % (w, name)) for w, places in sorted(where.items()) if len(places) >= 3 for f, n, name in places]


WORDS = {'let', 'mut', 'if', 'else', 'while', 'for', 'in', 'loop', 'match', 'return', 'break', 'continue', 'true', 'false', 'as', 'Some', 'None',
         'Ok', 'Err'}


def shape(body):
    """A body with each name as x and each number as 0, a path or a field as one name."""
    body = re.sub(r'//.*', '', body)
    body = re.sub(r"b?'(\\\\.|[^'\\\\])'|b?\"[^\"]*\"|\b\d[\d_]*(u8|u16|usize)?\b", '0', body)
    body = re.sub(r'[A-Za-z_]\w*(?:(?:::|\.)\w+)*', lambda m: m.group(0) if m.group(0) in WORDS else 'x', body)
    body = re.sub(r'\s+', '', body)
    return re.sub(r'x(,x)+,?', 'x', body)


def bodies():
    """The functions with bodies: file, line, name, body."""
    for f, text in TEXT.items():
        lines = text.split('\n')
        for n, line in enumerate(lines):
            m = re.match(r'( *)(?:pub(?:\([a-z]+\))? )?fn (\w+)', line)
            if not m:
                continue
            ends = [i for i in range(n, len(lines)) if lines[i] == m.group(1) + '}']
            opens = [i for i in range(n, len(lines)) if lines[i] == m.group(1) + '{' or (i == n and line.endswith('{'))
                     or (lines[i].startswith(m.group(1) + ')') and lines[i].endswith('{'))]
            if ends and opens and opens[0] < ends[0]:
                yield f, n + 1, m.group(2), '\n'.join(lines[opens[0] + 1:ends[0]])


def twins():
    """Functions of four lines or more whose bodies have the same shape."""
    by = defaultdict(list)
    for f, n, name, body in bodies():
        if body.count('\n') >= 3:
            by[shape(body)].append((f, n, name))
    groups = [g for g in by.values() if len(g) > 1]
    return [(f, n, 'group %d: %s' % (i, name)) for i, g in enumerate(groups, 1) for f, n, name in g]


POINTS = {
    '1 enums of the shape of Option or Result': option_like,
    '1 refusals as numbers': lambda: lines(r'\b(Refused|Draws|put_refused\(out,)\(? ?\d+\)') + lines(r'Refusal::\w+ as u8'),
    '1 functions that hand a number on': lambda: [(f, n, x) for f, n, x, p, c in functions()
                                                  if re.search(r'-> u8', c) and re.match(r'\w+: \w+$', p.strip()) and 'Refus' in TEXT[f]],
    '1 kinds, letters, sorts as numbers in parameters and fields':
        lambda: lines(r'\b(kind|letter|class|behind|sort|place|results|numbers): (u8|usize)\b'),
    '1 values that stand for none': lambda: lines(r'\b(NO_VAR|UNREACHED|NO_KIND|NO_PLACE)\b(?!,|\})'),
    '2 functions whose bodies have the same shape': twins,
    '3 loops by hand': lambda: lines(r"^\s*('\w+: )?(while|loop)\b"),
    '3 of these by a cursor that moves by what a field says':
        lambda: lines(r"^\s*('\w+: )?while (at|field) < "),
    '4 casts that a From has': lambda: lines(r'\b\w[\w.\[\]]* as usize\b'),
    '4 functions for a cast, a least, a rest':
        lambda: lines(r'^\s*(pub )?fn (wide|place|short|narrow|least|smaller|minus|rest_at|usable|minus)\('),
    '4 calls of them': lambda: lines(r'(?<![\w:.])(wide|place|short|narrow|least|smaller|minus|rest_at|usable)\((?![a-z]+: )'),
    '4 ids compared by their number': lambda: lines(r'\.0 (==|!=|<=?|>=?) \w+\.0'),
    '5 parameters that travel together': travelling,
    '5 facts in the requires of three or more': facts,
    '6 a part of a record as a place and a length': lambda: [(f, n, x) for f, n, x, p, c in functions()
                                                             if re.search(r'\b(start|from): usize', p) and re.search(r'\b(len|count|end|to): usize', p)],
    '6 searches by halving': lambda: lines(r'while low < high'),
}


def main():
    verbose = '-v' in sys.argv
    asked = [a for a in sys.argv[1:] if a != '-v']
    for title, find in POINTS.items():
        if asked and title.split()[0] not in asked:
            continue
        found = find()
        print('%4d  %s' % (len(found), title))
        if verbose:
            by = Counter()
            for place in found:
                print('        %s:%d: %s' % place)
                by[place[0].split('/')[1]] += 1
            print('        ' + ', '.join('%s %d' % x for x in by.most_common()))


main()
