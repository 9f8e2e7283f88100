#!/usr/bin/env python3
# Counts the places that docs/DESIGN-PASS.md speaks of, in crates/*/src below the folder given (-l lists them).
import re, glob, sys, os
root = sys.argv[1] if len(sys.argv) > 1 else '.'
files = sorted(glob.glob(os.path.join(root, 'crates/*/src/*.rt')))
text = {f: open(f).read() for f in files}
def short(f): return f.split('crates/')[-1]
def show(title, rows):
    print('%s: %d' % (title, len(rows)))
    if '-l' in sys.argv:
        for r in rows: print('   ', r)
def enums():
    for f in files:
        for m in re.finditer(r'(?m)^(?:pub )?enum (\w+)[^\n{]*\{\n(.*?)^\}', text[f], re.S):
            yield f, m.group(1), [v.strip().rstrip(',') for v in m.group(2).split('\n') if v.strip() and not v.strip().startswith('//')]
# 1: two variants of which one has data, or a variant that is a refusal
bad = re.compile(r'(Refus|Declin|OutOfRange|Failed)')
show('1a enums of the shape of Option or Result', ['%s %s {%s}' % (short(f), n, ', '.join(v)) for f, n, v in enums()
     if (len(v) == 2 and any('(' in x for x in v)) or any(bad.match(x) for x in v)])
show('1b structs with a bool beside other fields', ['%s %s' % (short(f), m.group(1)) for f in files
     for m in re.finditer(r'(?m)^(?:pub )?struct (\w+)[^\n{]*\{\n((?:.*\n)*?)\}', text[f]) if ': bool' in m.group(2) and m.group(2).count(':') > 1])
show('1c matches that give each variant a number', ['%s %s' % (short(f), m.group(1)) for f in files
     for m in re.finditer(r'fn (\w+)\([^)]*\) -> [ui]\d+\n(?:[^{}]*\{[^{}]*\}\n)*\s*\{\s*match \w+ \{((?:\s*\w+::\w+ => -?\d+,)+)\s*\}', text[f])])
# 2: functions whose names differ in a width, or in low/high, first/second, lesser/greater
names = {}
for f in files:
    for m in re.finditer(r'(?m)^\s*(?:pub )?fn (\w+)', text[f]): names.setdefault(m.group(1), []).append(short(f))
def stem(n): return re.sub(r'(16|32)', 'W', n)
twins = {}
for n in names: twins.setdefault(stem(n), []).append(n)
show('2a functions that differ in 16 and 32', ['%s: %s' % (k, ', '.join(v)) for k, v in sorted(twins.items()) if len(v) > 1])
show('2b lesser_ and greater_ of each type', [n for n in sorted(names) if re.match(r'(lesser|greater)(_|$)', n)])
rec = {}
for f in files:
    for m in re.finditer(r'(?m)^(?:pub )?struct (\w+)(?:<\w+>)? \{\n((?:    pub .*\n)+)\}', text[f]):
        k = re.sub(r'(answer|pub answer): .*', r'answer: _', m.group(2)); rec.setdefault(k, []).append(m.group(1))
show('2c structs that differ in the type of their answer', ['%s' % ', '.join(v) for k, v in rec.items() if len(v) > 1 and 'answer: _' in k])
# 3
show('3a loops that are no for', ['%s:%d %s' % (short(f), text[f][:m.start()].count('\n') + 2, m.group(1).strip()) for f in files
     for m in re.finditer(r'\n( *(?:while|loop)\b[^\n]*)', text[f])])
show('3b for loops', ['%s:%d %s' % (short(f), text[f][:m.start()].count('\n') + 2, m.group(1).strip()) for f in files
     for m in re.finditer(r'\n( *for [^\n]*)', text[f])])
# 4
show('4 equality, order, least and greatest by hand', ['%s %s' % (short(f), m.group(1)) for f in files
     for m in re.finditer(r'(?m)^\s*(?:pub )?fn ((?:same|less|lesser|greater|larger|higher|wide|byte_of|one_more|refusal_number)\w*)', text[f])])
# 5
def params(f):
    for m in re.finditer(r'fn (\w+)(?:<[^>]*>)?\(([^)]*)\)', text[f]): yield m.group(1), m.group(2)
show('5 functions with four or more of the six tables', ['%s %s' % (short(f), n) for f in files for n, p in params(f)
     if sum(bool(re.search(r'\b%s: &' % t, p)) for t in ('degrees', 'sides', 'ends', 'lengths', 'volumes', 'labels')) >= 4])
show('6 slots and places of a slice found by hand (get with a default, binary search, sort)', ['%s %s' % (short(f), n) for f in files
     for n in re.findall(r'fn ((?:sort|gather|enter|sift|push|pop|heap)\w*)', text[f])])
show('7 functions that differ in the step they run', [n for n in ('land_records', 'note_records') if n in names])
