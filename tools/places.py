#!/usr/bin/env python3
"""Lists the places in crates/*/src that docs/DESIGN-PASS.md counts. Run at the top of the repository: python3 tools/places.py [POINT]

A line that is printed is a place to look at, and no verdict."""
import glob
import re
import sys
from collections import defaultdict

FILES = sorted(glob.glob('crates/*/src/**/*.rt', recursive=True))
TEXT = {f: open(f).read() for f in FILES}
CODE = {f: [re.sub(r'//.*', '', line) for line in TEXT[f].split('\n')] for f in FILES}


def lines(pattern, where=lambda f: True, without=None):
    for f in FILES:
        if where(f):
            for n, line in enumerate(CODE[f], 1):
                if re.search(pattern, line) and not (without and re.search(without, line)):
                    yield f'{f}:{n}: {line.strip()}'


def body(f, start):
    """The block that opens on a line."""
    depth, out = 0, []
    for line in CODE[f][start:]:
        out.append(line)
        depth += line.count('{') - line.count('}')
        if depth <= 0 and '{' in ''.join(out):
            break
    return '\n'.join(out)


def signatures():
    """Each function: its file, line, name, parameters and clauses."""
    for f in FILES:
        text = '\n'.join(CODE[f])
        for m in re.finditer(r'\bfn (\w+)(<[^(]*>)?\(([^{;]*?)\)([^{;]*)', text, re.S):
            line = text[:m.start()].count('\n') + 1
            after = text[m.end(3):m.end(3) + 4000]
            end = re.search(r'\n\s*(\{|\{\})?\n|;\n', after)
            clauses = re.findall(r'\n\s*(requires|ensures)( \w+)? \{ (.*) \}', after[:end.start() + 4000 if end else 4000].split('\n    {\n')[0].split('\n{\n')[0].split('\n        {\n')[0])
            yield f, line, m.group(1), [' '.join(p.split()) for p in m.group(3).split(',') if ':' in p], [(k, c) for k, _, c in clauses]


def point_1():
    "numbers for kinds, refusals or none; own enums for what Result and Option say; a bool for a refusal"
    yield from lines(r'-> (u8|Result<[A-Za-z]+, u8>)( \{)?$', without='letter')
    yield from lines(r'^    (Memory|NoMemory),')
    yield from lines(r'\[2048; |== 2048|\(?lead( as usize\))? < TRACKS|at != 0|as u16 \+ 1;|let none = self')
    yield from lines(r'fn rewrite.*-> bool|second: bool')


def point_2():
    "twins: functions of one name and one body or nearly, types with the same fields, constants that stand twice"
    bodies = defaultdict(list)
    for f in FILES:
        for n, line in enumerate(CODE[f]):
            if re.match(r'\s*(pub(\(crate\))? )?(extern "C" )?fn \w+', line):
                b = body(f, n)
                if b.count('\n') > 2:
                    shape = re.sub(r'\b(fn|const) \w+', r'\1 _', re.sub(r'\s+', ' ', re.sub(r'(requires|ensures)[^\n]*', '', b)))
                    shape = re.sub(r'"[^"]*"|\b\d\w*', '0', re.sub(r'\b(words_needed|group_count|sum_words|sum_groups|labels_x|labels_s|Xor|Sum32|words|Fault|Fail|&mut|rt)\b', '_', shape))
                    bodies[shape].append(f'{f}:{n + 1}: {line.strip()}')
    for found in bodies.values():
        if len(found) > 1:
            yield from found[1:]
    fields = defaultdict(list)
    for f in FILES:
        for m in re.finditer(r'struct (\w+)[^{;]*\{(.*?)\n\}', '\n'.join(CODE[f]), re.S):
            fields[re.sub(r'\s+', ' ', m.group(2))].append(f'{f}: struct {m.group(1)}')
    for found in fields.values():
        yield from found[1:]
    values = defaultdict(list)
    for line in lines(r'const [A-Z_]+: (usize|u8) = (2048|255);'):
        values[line.split('= ')[1]].append(line)
    for found in values.values():
        yield from found[1:]


def point_3():
    "loops whose counter only indexes, and searches or prefixes by hand"
    for f in FILES:
        for n, line in enumerate(CODE[f]):
            m = re.match(r'\s*for (\w+) in [^{&]*\.\.', line)
            if m and re.search(r'\[\*?' + m.group(1) + r'( as usize)?\]|(record|is_led)\w*\([^)]*\b' + m.group(1) + r'\b', body(f, n)):
                yield f'{f}:{n + 1}: {line.strip()}'
            if re.match(r'\s*while .* < ', line):
                yield f'{f}:{n + 1}: {line.strip()}'
            m = re.match(r'\s*for (\w+|\(\w+, \w+\)) in ', line)
            if m and re.search(r'^\s*return (\w+);', body(f, n), re.M) and not f.startswith('crates/trials'):
                yield f'{f}:{n + 1}: {line.strip()} (a search)'
            m = re.match(r'\s*for \((\w+), \w+\) in .*enumerate\(\)', line)
            if m and re.search(r'\[' + m.group(1) + r'\]', body(f, n)):
                yield f'{f}:{n + 1}: {line.strip()} (a second list by its number)'


def point_4():
    "equality, copying, conversion and printing by hand, by the names of such functions"
    yield from lines(r'fn (same\(&self, _?other|number\((self|answer)|(alike|is_lead|is_single|is_comment|copy_marks|digit|number_of|status_of|state_word|mark_word|balance_words|row|push_row|track_fields|label_fields|[a-z]+_text|too_few_text|put_number)\b)', without='check_text')
    yield from lines(r'^impl.* From<.*for (Fault|Stop) ')
    yield from lines(r'Ok\((\w+)\) => Ok\(\1\)')


def point_5():
    "clauses that stand in three or more functions of a crate, and pairs of parameters in four or more"
    facts, pairs = defaultdict(set), defaultdict(set)
    for f, line, name, params, clauses in signatures():
        crate = f.split('/')[1]
        if crate.startswith('trials'):
            continue
        for kind, clause in clauses:
            if kind == 'requires':
                for part in re.split(r' × ', clause):
                    facts[(crate, re.sub(r'\.(old|now)', '', part.strip('()')))].add((f, line))
        for i, p in enumerate(params):
            for q in params[i + 1:]:
                pairs[(crate, p, q)].add((f, line))
    for (crate, clause), where in sorted(facts.items()):
        if len(where) > 2:
            yield f'{crate}: {len(where)} functions require {clause}'
    for (crate, p, q), where in sorted(pairs.items()):
        if len(where) > 3:
            yield f'{crate}: {len(where)} functions take ({p}, {q})'


def point_6():
    "structs with two lists, or with a list and a number beside it, and functions over bytes with a place beside them"
    for f in FILES:
        for m in re.finditer(r'struct (\w+)[^{;]*\{(.*?)\n\}', '\n'.join(CODE[f]), re.S):
            lists = re.findall(r'(\w+): (?:\[[^\]]*\]|Vec<[^\n]*>|&[^\n]*\[[^\]]*\]),', m.group(2))
            numbers = re.findall(r'(\w+): usize,', m.group(2))
            if lists and len(lists) + len(numbers) > 1:
                yield f'{f}: struct {m.group(1)}: {", ".join(lists + numbers)}'
    yield from lines(r'fn put_\w+\(bytes: &mut \[u8\], at: usize|^    at: usize,$', where=lambda f: 'reader' not in f)


def point_7():
    "parameters and branches that say which step to run"
    yield from lines(r'fn (set|put)_.*\bshut: bool|second: bool|if second')
    yield from (line for line in lines(r'fn sum_(words|groups)'))


def point_8():
    "answers in proofs/, by crate (read when the crate is touched)"
    count = defaultdict(int)
    for f in glob.glob('crates/*/proofs/**/*.antt', recursive=True):
        if f.endswith('Answers.antt'):
            count[f.split('/')[1]] += len(re.findall(r'^(?:abbrev )?pub [^\n]* : goal\.', open(f).read(), re.M))
    for crate in sorted(count):
        yield f'{crate}: {count[crate]} answers'


for number, point in enumerate((point_1, point_2, point_3, point_4, point_5, point_6, point_7, point_8), 1):
    if len(sys.argv) > 1 and sys.argv[1] != str(number):
        continue
    found = list(point())
    print(f'== {number}: {len(found)} ({point.__doc__})')
    print('\n'.join(found))
