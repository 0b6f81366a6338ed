#!/usr/bin/env python3
"""Lists the places in crates/*/src where an older form of the language may stand, one point a section, and counts them.

usage: places.py [FOLDER]        FOLDER is the top of a checkout (default: here)

It goes by text, and so lists candidates: docs/DESIGN-PASS.md says which of them are places, and what became of each.
"""
import glob, re, sys
from difflib import SequenceMatcher
from itertools import combinations

top = (sys.argv[1].rstrip('/') + '/') if len(sys.argv) > 1 else ''
files = sorted(glob.glob(top + 'crates/*/src/*.rt'))
text = {f[len(top) + len('crates/'):].replace('/src/', '/'): open(f).read() for f in files}

def bare(source):
    """The text without comments and strings, line for line."""
    source = re.sub(r'b?"(?:\\.|[^"\\])*"', lambda m: '""' + '\n' * m.group().count('\n'), source)
    return re.sub(r'//[^\n]*', '', source)

code = {f: bare(t) for f, t in text.items()}

def lines(pattern):
    return [(f, n, line.strip()) for f, t in code.items() for n, line in enumerate(t.split('\n'), 1) if re.search(pattern, line)]

FN = re.compile(r'^([ \t]*)((?:pub(?:\([a-z]+\))? |extern "" |unsafe )*)fn (\w+)(<[^{(]*?>)?\((.*?)\)(?: -> ([^{;\n]+?))?\s*(?=\n\s*(?:requires|ensures|where)|\{|;|\n\s*\{)', re.M | re.S)

def functions():
    """File, line, name, parameters, result, contract, body of each function."""
    for f, t in code.items():
        for m in FN.finditer(t):
            if re.match(r'[ \t]*\{', t[m.end():]):
                cut = m.end()
            else:
                # a contract goes on to the line that opens the body, or to the `;` that ends a declaration
                opens = re.compile(r'^' + m.group(1) + r'\{|;[ \t]*$', re.M).search(t, m.end())
                cut = opens.end() if opens and opens.group().startswith(';') else opens.start() if opens else len(t)
            declared = t[m.end():cut].rstrip().endswith(';')
            body = '' if declared else t[cut:t.find('\n' + m.group(1) + '}', cut)]
            yield f, t[:m.start()].count('\n') + 1, m.group(3), ' '.join(m.group(5).split()), (m.group(6) or '').strip(), t[m.end():cut], body

FUNCTIONS = list(functions())

def show(title, rows):
    print(f'\n## {title}: {len(rows)}')
    for row in rows:
        print('  ' + ' | '.join(str(x) for x in row))

print('# 1 own Option or Result, flag beside a value, number in place of a kind')
show('own enums', lines(r'\benum \w+'))
show('a flag returned where a value comes back by `&mut`', [(f, n, name, p) for f, n, name, p, r, c, b in FUNCTIONS if r == 'bool' and '&mut' in p])
show('a Result or flag in a pair', [(f, n, name, r) for f, n, name, p, r, c, b in FUNCTIONS if re.match(r'\(.*(Result|bool)', r)])
show('flags as fields', lines(r'^\s*(pub )?\w+: (\[)?bool\b'))
show('numbers for kinds or refusals', [(f, n, name, r) for f, n, name, p, r, c, b in FUNCTIONS if re.match(r'(Result<)?u8\b', r) and re.search(r'=> \d+|number\(\)', b)])
show('`Ok => true`', lines(r'Ok\(.*\) => true|Some\(.*\) => true'))

print('\n# 2 twins')
def shape(body):
    return re.findall(r'\w+|[^\w\s]', re.sub(r'\b(u8|u16|u32|usize|\d\w*|0x\w+)\b', '#', body))
rows = []
bodies = [(f, n, name, shape(b)) for f, n, name, p, r, c, b in FUNCTIONS if len(shape(b)) >= 18]
for (f, n, name, a), (g, m, other, b) in combinations(bodies, 2):
    if abs(len(a) - len(b)) <= 0.3 * max(len(a), len(b)):
        s = SequenceMatcher(None, a, b, autojunk=False)
        if s.quick_ratio() > 0.85 and s.ratio() > 0.85:
            rows.append((f, n, name, g, m, other, round(s.ratio(), 2)))
show('functions of nearly the same shape', rows)
types = {}
for f, n, line in lines(r'\btype \w+ = '):
    types.setdefault(line.split('=')[1].strip(), []).append((f, n, line))
show('types and constants by the same name or meaning', [r for v in types.values() if len(v) > 1 for r in v] + lines(r'const IDENTITY'))

print('\n# 3 loops that count an index')
show('while and loop', lines(r'^\s*(while|loop)\b'))
show('for over a range', lines(r'^\s*for \w+ in .*\.\.'))
show('for with enumerate', lines(r'^\s*for .*enumerate\(\)'))

print('\n# 4 conversions, equality, order, printing by hand')
show('casts', lines(r' as (u8|u16|u32|u64|usize)\b'))
show('impls of std traits by hand', lines(r'^\s*impl\b.*\b(PartialEq|Eq|PartialOrd|Ord|Clone|Copy|From|TryFrom|Display|Debug|Default|Hash)\b.* for '))
show('comparisons by hand', [(f, n, name, p) for f, n, name, p, r, c, b in FUNCTIONS if re.search(r'\w\[\w+\] [!=]= \w+\[\w+\]|\w\[\w+\], \w+\[\w+\]', b)])

print('\n# 5 facts in three or more contracts, parameters that travel together')
facts = {}
for f, n, name, p, r, c, b in FUNCTIONS:
    for kind, fact in re.findall(r'\brequires(?: (\w+))? \{ (.*?) \}(?=\s*(?:\n|$|requires|ensures))', c):
        facts.setdefault((f.split('/')[0], fact), []).append(name)
show('premises in three or more functions', [(k[0], k[1], ', '.join(v)) for k, v in facts.items() if len(v) > 2])
together = {}
for f, n, name, p, r, c, b in FUNCTIONS:
    ps = sorted({re.sub(r'\s+', ' ', x).strip() for x in re.split(r',(?![^<(\[]*[>)\]])', p) if ':' in x})
    for three in combinations(ps, 3):
        together.setdefault((f.split('/')[0],) + three, []).append(name)
show('three parameters in three or more functions', [(k[0], '; '.join(k[1:]), ', '.join(v)) for k, v in together.items() if len(v) > 2])
show('functions of six or more parameters', [(f, n, name, len(re.findall(r'\w+:', p)) + ('self' in p)) for f, n, name, p, r, c, b in FUNCTIONS if len(re.findall(r'\w+:', p)) + ('self' in p) > 5])

print('\n# 6 buffers with a length beside, parallel arrays, searches by hand')
rows = []
for f, t in code.items():
    for m in re.finditer(r'struct (\w+)[^{;]*\{(.*?)\n\}', t, re.S):
        if re.search(r': (\[|&[^,]*\[)', m.group(2)) and re.search(r': (u8|u16|u32|usize),', m.group(2)):
            rows.append((f, t[:m.start()].count('\n') + 1, m.group(1), ' '.join(m.group(2).split())))
show('structs with a buffer and a number', rows)
show('functions with a buffer and a number of its parts', [(f, n, name, p) for f, n, name, p, r, c, b in FUNCTIONS if re.search(r'\[', p) and re.search(r'\b(k|len|size|width|count|n): (u8|u16|u32|usize)', p)])
show('parts of a buffer by hand', lines(r'\* 512|512\.\.|\.\.at \+|\[at\.\.'))

print('\n# 7 switches on which step to run, tables of functions')
rows = []
for f, t in code.items():
    for m in re.finditer(r'match ([^{;\n]*) \{\n((?:.*\n)*?)(\s*)\}', t):
        arms = re.findall(r'=> (.*)', m.group(2))
        if len(arms) > 1 and all(re.match(r'(return )?(self\.)?[\w.:]+\(|match ', a) for a in arms if a.strip() not in ('{', '{}')) and not all(re.match(r'(Ok|Err|Some|Refusal)', a) for a in arms):
            rows.append((f, t[:m.start()].count('\n') + 1, m.group(1)))
show('matches whose arms call', rows)
show('function types', lines(r'\bfn\('))

print('\n# 8 proofs')
proofs = sorted(glob.glob(top + 'crates/*/proofs/**/*.antt', recursive=True))
answers = sum(len(re.findall(r'^pub \S+ : goal\.', open(p).read(), re.M)) for p in proofs)
print(f'\n## files: {len(proofs)}, lines: {sum(open(p).read().count(chr(10)) for p in proofs)}, answers: {answers}')
