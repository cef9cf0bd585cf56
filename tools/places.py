#!/usr/bin/env python3
"""Counts the places of the design pass in crates/*/src, by point and rule.

    python3 tools/places.py [FOLDER] [--list] [--point N]

FOLDER is a checkout (default: the one this file lies in). A place counts as kept where a comment line
'// Stays: REASON' stands in the item that holds it, right above that item, or right above its impl; each such line
serves the places of one rule. --list prints each place.
"""
import collections
import os
import re
import sys

WIDER = {'u8': ('u16', 'u32', 'u64', 'usize', 'i32', 'i64'), 'u16': ('u32', 'u64', 'i64', 'usize'), 'u32': ('u64', 'i64'),
         'i32': ('i64',), 'bool': ('u8', 'u32', 'u64', 'usize')}
# Parameters of type bool that are values: they are combined, compared, chosen by or printed, and pick no step.
VALUES = ('other', 'right', 'same', 'holds', 'truth', 'test', 'answer', 'pick')
KEYWORDS = set('''fn pub let mut if else match for in while loop return struct enum impl trait use mod const self Self
    true false where as ref move break continue crate unsafe dyn super type static'''.split())
TOKEN = re.compile(r"'[a-z_]\w*\b(?!')|b?'(?:\\.|[^'\\])+'|b?\"(?:\\.|[^\"\\])*\"|\d[\w.]*|\w+|\S")


class Item:
    """A function, struct, enum or constant: where it begins and ends, and its text without clauses."""

    def __init__(self, path, first, last, lines, kind, name):
        self.path, self.first, self.last, self.kind, self.name = path, first, last, kind, name
        above = first
        while above > 0 and re.match(r'\s*(//|#\[)', lines[above - 1]):
            above -= 1
        self.whole = '\n'.join(lines[above:last + 1])
        # A reason right above an impl holds for the functions in it.
        outer = first
        while outer > 0 and lines[first].startswith(' ') and not lines[outer].startswith('impl'):
            outer -= 1
        top = outer
        while top > 0 and lines[top - 1].startswith('//'):
            top -= 1
        self.impl = (path, outer)
        self.impl_reasons = sum(l.startswith('// Stays: ') for l in lines[top:outer]) if outer < first else 0
        self.reasons = self.whole.count('// Stays: ')
        self.code = '\n'.join(l for l in lines[first:last + 1]
                              if not re.match(r'\s*(//|requires |ensures |ghost )', l))
        self.clauses = [re.sub(r'^\s*requires (\w+ )?\{ (.*) \}.*$', r'\2', l)
                        for l in lines[first:last + 1] if re.match(r'\s*requires ', l)]


def end_of(lines, first):
    """The line on which the item that begins at first ends: its braces are even there."""
    depth, seen = 0, False
    for i in range(first, len(lines)):
        text = re.sub(r'"(?:\\.|[^"\\])*"|b?\'(?:\\.|[^\'\\])\'|//.*', '', lines[i])
        if re.match(r'\s*(requires|ensures|ghost) ', lines[i]):
            continue
        for c in text:
            if c == '{':
                depth, seen = depth + 1, True
            elif c == '}':
                depth -= 1
        if (seen and depth == 0) or (not seen and text.rstrip().endswith(';')):
            return i
    return len(lines) - 1


def items_of(path):
    lines = open(path, encoding='utf-8').read().split('\n')
    for i, line in enumerate(lines):
        m = re.match(r'\s*(?:pub(?:\(\w+\))? )?(?:const )?(fn|struct|enum|const) (\w+)', line)
        if m:
            yield Item(path, i, end_of(lines, i), lines, m.group(1), m.group(2)), lines


def shape(item):
    """The tokens of a function with every name, number and text left out."""
    body = item.code
    out = []
    for t in TOKEN.findall(body):
        if t in KEYWORDS or not (t[0].isalnum() or t[0] in '_"\'' or t.startswith('b"') or t.startswith("b'")):
            out.append(t)
        elif t[0].isdigit() or t[0] in '"\'' or t.startswith('b"') or t.startswith("b'"):
            out.append('#')
        else:
            out.append('_')
    return tuple(out)


def matches(item, lines, pattern):
    for i in range(item.first, item.last + 1):
        if re.match(r'\s*(//|requires |ensures |ghost )', lines[i]):
            continue
        if re.search(pattern, lines[i]):
            yield i, lines[i].strip()


def main():
    args = [a for a in sys.argv[1:] if not a.startswith('--')]
    root = args[0] if args and not args[0].isdigit() else os.path.join(os.path.dirname(__file__), '..')
    listing = '--list' in sys.argv
    only = sys.argv[sys.argv.index('--point') + 1] if '--point' in sys.argv else None
    found = collections.OrderedDict()

    def add(rule, item, line, text):
        found.setdefault(rule, []).append((item, line + 1, text))

    # Each reason serves one rule of its item, or of its impl.
    served = collections.defaultdict(set)

    def has_reason(rule, item):
        for key, reasons in ((item.path, item.first), item.reasons), (item.impl, item.impl_reasons):
            if rule in served[key]:
                return True
            if len(served[key]) < reasons:
                served[key].add(rule)
                return True
        return False

    items = []
    # Libraries before what stands on them, so that the second of two twins is the later one.
    order = re.findall(r'^(\w+):(.*)$', open(os.path.join(root, 'crates.txt'), encoding='utf-8').read(), re.M)
    order.sort(key=lambda line: len(line[1].split()))
    for crate, _ in order:
        for folder, _, names in sorted(os.walk(os.path.join(root, 'crates', crate, 'src'))):
            for name in sorted(names):
                if name.endswith('.rt'):
                    items += list(items_of(os.path.join(folder, name)))

    # The types of fields, and of what query and node patterns bind, by name where all agree.
    field_types, bound = {}, {}
    for item, lines in items:
        if item.kind == 'struct':
            for name, of in re.findall(r'(\w+): (\w+),', item.code):
                field_types[name] = of if field_types.get(name, of) == of else None
        for names in re.findall(r'Query::(?:Some|Every)\((\w), (\w), (\w)\)', item.code):
            bound.update({(item.path, n): t for n, t in zip(names, ('u8', 'i32', 'i32'))})
        for names in re.findall(r'Query::(?:Fact|Number)\((\w), (\w), (\w)\)', item.code):
            bound.update({(item.path, n): t for n, t in zip(names, ('u8', 'u32', 'u32')) if n != 'v'})
    field_types['number'] = 'u8'

    # 1
    for item, lines in items:
        if item.kind == 'enum':
            variants = re.findall(r'^\s+(\w+)(\([^)]*\))?,', item.code, re.M)
            if len(variants) == 2 and sum(1 for v in variants if v[1]) >= 1 and not item.name.endswith(('Error', 'Fault')):
                add('1 enum like Option or Result', item, item.first, item.name)
        if item.kind == 'struct':
            for i, t in matches(item, lines, r'\w+: bool,'):
                add('1 flag in a struct', item, i, t)
            for i, t in [] if item.name in ('Rule', 'Relation') else matches(item, lines, r'^\s*(pub )?(number|open|met): (u8|i64),'):
                add('1 number for a kind', item, i, item.name + ': ' + t)
        if item.kind == 'const' and re.search(r'pub const \w+: u8 = \d', item.code):
            add('1 number for a kind', item, item.first, item.code)
        if item.kind == 'fn' and not re.search(r'fn number\(self\)', item.code):
            head = item.code.split('{')[0]
            if re.search(r'-> \(?(\w+, )?(Result<)?u(8|64)\b', head) and \
                    re.search(r'\.number\(\)|\b(YES|NO|OPEN)\b|Ok\(\d\d\)|\b(1000|2000)\b|=> 2,|value\.(min|max)', item.code):
                add('1 number for a kind', item, item.first, item.name)
            if re.search(r'-> usize', head) and re.search(r'return \w+;', item.code) and \
                    re.search(r'\n\s*\w+\.len\(\)\n\s*\}$', item.code):
                add('1 length for none', item, item.first, item.name)
    # 2
    groups = collections.defaultdict(list)
    for item, lines in items:
        if item.kind == 'fn':
            s = shape(item)
            if len(s) >= 40:
                groups[s].append(item)
    for group in groups.values():
        for item in group[1:]:
            add('2 function of the shape of another', item, item.first, item.name + ' ~ ' + group[0].name
                + ' (' + os.path.relpath(group[0].path, root) + ')')
    structs = collections.defaultdict(list)
    for item, lines in items:
        if item.kind == 'struct':
            fields = tuple(sorted(re.findall(r'(\w+): ([^,\n]+),', item.code)))
            if len(fields) >= 2:
                structs[fields].append(item)
    for group in structs.values():
        for item in group[1:]:
            add('2 struct with the fields of another', item, item.first, item.name + ' ~ ' + group[0].name)
    # 3
    for item, lines in items:
        if item.kind != 'fn':
            continue
        for i, t in matches(item, lines, r'^\s*while (?!let).*[<>]'):
            add('3 while over places', item, i, t)
        for i, t in matches(item, lines, r'^\s*for ([a-z]|place) in .*\.\.'):
            add('3 for over places', item, i, t)
        for m in re.finditer(r'^( *)for [^\n]+\{\n\s+if [^\n]+\{\n\s+(return|\w+ = \w+\.\w+_add\(1\))[^\n]*;\n\s+\}\n\1\}',
                             item.code, re.M):
            add('3 search or count by a loop', item, item.first, item.name)
        for m in re.finditer(r'^( *)for [^\n]+\{\n\s+\w+ (\+=|= \w+\.(max|min)\()[^\n]+;\n\1\}', item.code, re.M):
            add('3 sum or extreme by a loop', item, item.first, item.name)
    # 4
    for item, lines in items:
        if item.kind != 'fn':
            continue
        pairs = collections.defaultdict(set)
        for i, t in matches(item, lines, r'(\w+)\.(\w+) (==|!=|<) (\w+)\.\2\b'):
            for a, field, _, b in re.findall(r'(\w+)\.(\w+) (==|!=|<) (\w+)\.\2\b', t):
                pairs[a, b].add(field)
        for (a, b), names in pairs.items():
            if len(names) >= 2:
                add('4 fields compared one by one', item, item.first, f'{item.name}: {a}, {b}: ' + ', '.join(sorted(names)))
        types = dict(re.findall(r'(\w+): (u8|u16|u32|i32|bool)\b', item.code.split('{')[0]))
        for i, t in matches(item, lines, r'\bas (u8|u16|u32|u64|usize|i32|i64|i128)\b'):
            for field, name, into in re.findall(r'(\.?)(\w+)(?:\(\))? as (\w+)', t):
                narrow = field_types.get(name) if field else types.get(name) or bound.get((item.path, name))
                if into in WIDER.get(narrow, ()):
                    add('4 cast where From would do', item, i, t)
        for i, t in matches(item, lines, r'Ok\((\w+)\) => Ok\(\1\)|Some\(\w+\) => Some\(|None => None|Err\((\w+)\) => Err\('
                                         r'|None => false|Some\(_\) => 1'):
            add('4 mapped by a match', item, i, t)
    # 5
    clauses = collections.defaultdict(list)
    params = collections.defaultdict(list)
    having = collections.Counter()
    for item, lines in items:
        if item.kind != 'fn':
            continue
        crate = os.path.relpath(item.path, root).split(os.sep)[1]
        for c in item.clauses:
            for part in re.split(r'\) × \(+|^\(+|\)+$', c):
                part = re.sub(r'\.(old|now|new)\b', '', part.strip(' ()'))
                if part:
                    clauses[crate, part].append(item)
        head = item.code.split('{')[0]
        names = re.findall(r'(?:^|[(,\s])(?:mut )?(\w+): ([^,()]+(?:<[^>]*>)?)', head)
        keys = sorted({(n, t.strip()) for n, t in names if not n.isupper()})
        for key in keys:
            having[crate, key] += 1
        for a in range(len(keys)):
            for b in range(a):
                params[crate, keys[b], keys[a]].append(item)
    for (crate, c), group in clauses.items():
        if len(group) >= 3:
            add('5 fact in three contracts or more', group[0], group[0].first, f'{len(group)}: {c}')
    for (crate, a, b), group in params.items():
        if len(group) >= 4 and len(group) >= 0.7 * max(having[crate, a], having[crate, b]):
            add('5 parameters together in four functions or more', group[0], group[0].first,
                f'{len(group)}: {a[0]}, {b[0]}')
    # 6
    for item, lines in items:
        if item.kind == 'struct':
            vectors = re.findall(r'(\w+): (?:Vec<|&\'?\w* ?\[)', item.code)
            if len(vectors) >= 2:
                add('6 vectors side by side', item, item.first, item.name + ': ' + ', '.join(vectors))
        if item.kind == 'enum' and re.search(r'\(.*usize.*\)', item.code) and 'usize' in item.code:
            if len(re.findall(r'usize', item.code)) >= 3:
                add('6 arena of indices', item, item.first, item.name)
        if item.kind == 'fn':
            for i, t in matches(item, lines, r'/ 2;|\[\w+; \d+\]\[|= \[\w+; \d+\];|\[0\.\.\w+(\.len\(\))?\]'):
                add('6 buffer with a length, or a search by halves', item, i, t)
    # 7
    for item, lines in items:
        if item.kind == 'fn':
            head = item.code.split('{')[0]
            for m in re.finditer(r'(\w+): bool\b', head):
                if m.group(1) not in VALUES:
                    add('7 bool that picks a step', item, item.first, item.name + ': ' + m.group(1))
            for i, t in matches(item, lines, r'match (step|test|case|call|step\.call)\b'):
                add('7 switch on a step', item, i, t)
            for i, t in matches(item, lines, r'if \w+\.negated'):
                add('7 switch on a step', item, i, t)
    # 8
    answers = collections.Counter()
    for crate in sorted(os.listdir(os.path.join(root, 'crates'))):
        for folder, _, names in os.walk(os.path.join(root, 'crates', crate, 'proofs')):
            for name in names:
                text = open(os.path.join(folder, name), encoding='utf-8').read()
                if name == 'Answers.antt':
                    answers['answers'] += len(re.findall(r'^(?:pub )?[\w-]+ : goal\.', text, re.M))
                    answers['lines of answers'] += text.count('\n')
                elif name == 'Invariants.antt':
                    answers['lines of invariants'] += text.count('\n')
                else:
                    answers['lines of shared lemmas'] += text.count('\n')
                    answers['shared lemmas'] += len(re.findall(r'^(?:pub )?[\w◌-]+ : ', text, re.M))
    for rule, places in found.items():
        if only and rule[0] != only:
            continue
        kept = [has_reason(rule, item) for item, _, _ in places]
        print(f'{rule}: {len(places)} found, {sum(kept)} with a reason')
        if listing:
            for (item, line, text), stays in zip(places, kept):
                path = os.path.relpath(item.path, root)
                print(f'    {path}:{line}: {text}' + ('  [stays]' if stays else ''))
    if not only or only == '8':
        for name, n in answers.items():
            print(f'8 {name}: {n}')
    totals = collections.Counter()
    for rule, places in found.items():
        totals[rule[0]] += len(places)
    print('in all: ' + ', '.join(f'point {k}: {n}' for k, n in sorted(totals.items())))


main()
