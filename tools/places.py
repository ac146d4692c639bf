#!/usr/bin/env python3
"""Lists places in src/ that may have a plainer form, a heading for each kind, as docs/DESIGN-PASS.md counts them.

    python3 tools/places.py [FOLDER]      the kinds with their counts
    python3 tools/places.py [FOLDER] -v   and each place, as file:line: text

FOLDER is the top of a checkout; this one if none is named. A place is only a candidate: the page says of each kind how
many were read as places of the point.
"""
import collections
import glob
import os
import re
import sys

args = [a for a in sys.argv[1:] if not a.startswith('-')]
top = args[0] if args else os.path.join(os.path.dirname(os.path.abspath(__file__)), '..')
verbose = '-v' in sys.argv


def sources(pattern):
    for path in sorted(glob.glob(os.path.join(top, 'crates/*', pattern), recursive=True)):
        with open(path) as f:
            yield os.path.relpath(path, os.path.join(top, 'crates')), f.read().split('\n')


def lines_with(*patterns):
    found = []
    for name, lines in sources('src/**/*.rt'):
        for i, line in enumerate(lines):
            code = line.split('//')[0]
            if any(re.search(p, code) for p in patterns):
                found.append('%s:%d: %s' % (name, i + 1, line.strip()))
    return found


def else_returns():
    found = []
    for name, lines in sources('src/**/*.rt'):
        for i, line in enumerate(lines[:-1]):
            if re.search(r'\belse \{$', line) and re.search(r'let ', line) or line.strip() == ') else {':
                if re.search(r'return (Err|None|Some|Ok|false|true|0)', lines[i + 1]):
                    found.append('%s:%d: %s %s' % (name, i + 1, line.strip(), lines[i + 1].strip()))
    return found


def functions():
    """Each function's file, line, name, parameters and clauses."""
    for name, lines in sources('src/**/*.rt'):
        text = '\n'.join(lines)
        for m in re.finditer(r'^[ ]*(?:pub(?:\([a-z]+\))? )?fn (\w+)(?:<[^(]*>)?\(', text, re.M):
            depth, i = 1, m.end()
            while depth:
                depth += {'(': 1, ')': -1}.get(text[i], 0)
                i += 1
            params = [p.strip() for p in re.split(r',(?![^<(\[]*[>)\]])', text[m.end():i - 1]) if p.strip()]
            rest = text[i:]
            first = rest.split('\n', 1)[0]
            indent = re.match(r' *', m.group(0)).group(0)
            head = first if first.rstrip().endswith(('{', '{}', ';')) else rest[:rest.find('\n' + indent + '{')]
            clauses = re.findall(r'^\s+requires(?: \w+)? \{ (.*) \}$', head, re.M)
            yield '%s:%d' % (name, text.count('\n', 0, m.start()) + 1), m.group(1), params, clauses


def long_lists():
    return ['%s: %s(%s)' % (at, fn, ', '.join(ps)) for at, fn, ps, _ in functions() if len(ps) > 4]


def premises():
    by_text = collections.Counter()
    where = collections.defaultdict(list)
    for at, fn, _, clauses in functions():
        for clause in clauses:
            for part in re.split(r'[()]*\s×\s[()]*', clause.strip()):
                part = re.sub(r'^\(+(?=[^)]*$)|(?<![(])\)+$', '', part)
                by_text[part] += 1
                where[part].append('%s %s' % (at, fn))
    found = []
    for part, n in by_text.most_common():
        if n >= 3:
            found += ['%s: requires %s' % (at, part) for at in where[part]]
    return found


def plain_types():
    """Types that derive neither an equality nor a printing."""
    found = []
    for name, lines in sources('src/**/*.rt'):
        for i, line in enumerate(lines):
            if re.match(r'\s*(pub(\(\w+\))? )?(struct|enum) ', line):
                derives = lines[i - 1] if i and 'derive' in lines[i - 1] else ''
                if 'PartialEq' not in derives and 'Copy' in derives:
                    found.append('%s:%d: %s' % (name, i + 1, line.strip()))
    return found


def buffers():
    found = []
    for name, lines in sources('src/**/*.rt'):
        for i, line in enumerate(lines):
            if re.match(r'\s+(pub(\(\w+\))? )?\w+: \[\w+; \d+\],', line):
                near = ' '.join(lines[max(0, i - 3):i + 4])
                if re.search(r'\b(count|len|used): (u8|u32|usize)', near):
                    found.append('%s:%d: %s' % (name, i + 1, line.strip()))
    return found


def answers():
    found = []
    for name, lines in sources('proofs/**/Answers.antt'):
        for i, line in enumerate(lines):
            if re.match(r'pub [\w-]+ : goal\.', line):
                found.append('%s:%d: %s' % (name, i + 1, line.strip()))
    return found


KINDS = [
    ('1 an enum', lambda: lines_with(r'^\s*(pub(\(\w+\))? )?enum ')),
    ('1 an arm that wraps again what it unwraps', lambda: lines_with(
        r'Err\(\w+\) => Err\(', r'None => None\b', r'Ok\((\w+)\) => Ok\(\1\)', r'Some\((\w+)\) => Some\(')),
    ('1 an arm for nothing that gives a plain value', lambda: lines_with(
        r'None => (true|false|\d+|[a-z]\w*)\b', r'Some\(_\) => (true|false)')),
    ('1 a let .. else that returns a refusal or nothing', else_returns),
    ('1 a test of is_err or is_ok that returns', lambda: lines_with(r'if .*\.is_(err|ok)\(\) \{')),
    ('1 a number for a case', lambda: lines_with(r'=> \d+,$', r'\{ 1 \} else \{ 0 \}', r'Ok\(\d+\)$')),
    ('3 a loop over a range of numbers', lambda: lines_with(r"^\s*('\w+: )?for \w+ in .*\.\.")),
    ('3 a while or a bare loop', lambda: lines_with(r"^\s*('\w+: )?(while|loop)\b")),
    ('4 a function that compares, converts or prints', lambda: lines_with(
        r'fn (same\w*|eq|at_most|comes_first|in_words|number|show\w*|\w*_number|no_cell|one_if|told|found)\b')),
    ('4 a plain type that derives no equality', plain_types),
    ('5 a premise that stands in three or more contracts', premises),
    ('5 a function of more than four parameters', long_lists),
    ('6 an array with a count beside it', buffers),
    ('7 a match on what to do', lambda: lines_with(r'match (deed|fit|kind|self\.kind|call|how)\b')),
    ('8 an answer to a goal', answers),
]

for title, find in KINDS:
    found = find()
    print('%5d  %s' % (len(found), title))
    if verbose:
        for line in found:
            print('         ' + line)
