#!/usr/bin/env python3
"""Lists the places of the design pass (docs/DESIGN-PASS.md) in the sources, point by point.

    python3 tools/places.py [--list] [FOLDER]

prints a count for each search; --list also prints where. It looks at the text alone: each place has to be read.
"""
import glob, os, re, sys
from collections import defaultdict

args = [a for a in sys.argv[1:] if a != '--list']
verbose = '--list' in sys.argv
root = args[0] if args else '.'


def code(path):
    # comments go, lines stay
    return re.sub(r'//[^\n]*', '', open(path, encoding='utf-8').read())


SOURCES = {os.path.relpath(p, root): code(p) for p in sorted(glob.glob(os.path.join(root, 'crates/*/src/**/*.rt'), recursive=True))}
FN = re.compile(r'^( *)(?:pub(?:\(crate\))? )?(?:final )?fn (\w+)[^\n]*(?:\n(?!\1\}|\1 *fn )[^\n]*)*', re.M)


def functions():
    for path, text in SOURCES.items():
        lines = text.split('\n')
        for i, line in enumerate(lines):
            m = re.match(r'^( *)(?:pub(?:\(crate\))? )?(?:final )?fn (\w+)', line)
            if not m:
                continue
            j = i
            while j < len(lines) and not (lines[j] == m.group(1) + '}' or (lines[j].endswith('{}') and j > i) or lines[j].endswith(';') and '{' not in ''.join(lines[i:j])):
                j += 1
            yield path, i + 1, m.group(2), '\n'.join(lines[i:j + 1])


def grep(pattern, text_of=None):
    for path, text in SOURCES.items():
        for m in re.finditer(pattern, text, re.M):
            yield f'{path}:{text.count(chr(10), 0, m.start()) + 1}: {" ".join(m.group(0).split())[:110]}'


def show(label, places):
    places = list(places)
    print(f'{len(places):5}  {label}')
    if verbose:
        for p in places:
            print('         ', p)


def body(text):
    # what stands behind the clauses
    out, depth = [], None
    lines = text.split('\n')
    for k, line in enumerate(lines):
        if line.strip() == '{' and depth is None:
            return '\n'.join(lines[k + 1:-1])
    m = re.search(r'\{\n(.*)\n *\}$', text, re.S)
    return m.group(1) if m else ''


def clauses(text):
    for m in re.finditer(r'(?:ensures|requires)(?: \w+)? (\{(?:[^{}]|\{(?:[^{}]|\{[^{}]*\})*\})*\})', text):
        yield ' '.join(m.group(1).split())


print('1. own Options and Results, flags with a value, numbers for kinds and refusals')
show('enums (each read for its shape)', grep(r'^(?:pub(?:\(crate\))? )?enum \w+'))
show('functions that change something and answer a flag', (f'{p}:{n}: {f}' for p, n, f, t in functions() if re.search(r'&mut', t.split('{')[0]) and re.search(r'-> (?:Result<)?bool', t)))
show('flags as parameters', grep(r'\b\w+: bool\b(?=[,)])'))
show('numbers where a kind is meant', grep(r'\b(?:kind|mode|bay|direction|operation|layer): (?:u8|u16|u32|i16|i32)\b|-> u32\s+ensures \{ result ≡ mode_for|^const (?:NOT_SUPPORTED|REFUSED)[^\n]*'))

print('2. twins')
shapes = defaultdict(list)
for p, n, f, t in functions():
    b = body(t)
    if len(b.split('\n')) < 2 and ';' not in b and '(' not in b:
        continue
    shape = re.sub(r'\b[A-Za-z_]\w*\b', 'x', re.sub(r'\d[\w]*', '0', re.sub(r'"(?:[^"\\]|\\.)*"', '""', ' '.join(b.split()))))
    if len(shape) >= 30:
        shapes[shape].append(f'{p}:{n}: {f}')
show('functions of one crate whose bodies have one shape', (' ~ '.join(x) for s, v in shapes.items() for x in [sorted(v)] if len(v) > 1 and len({q.split('/')[1] for q in v}) < len(v)))
show('of two crates', (' ~ '.join(sorted(v)) for s, v in shapes.items() if len(v) > 1 and len({q.split('/')[1] for q in v}) == len(v)))

print('3. loops that count')
show('for over a range of numbers', grep(r'\bfor \w+ in [^{\n]*\.\.[^{\n]*\{'))
show('while and loop', grep(r'\bwhile\b[^{\n]*\{|\bloop \{'))
show('counters', grep(r'^\s*\w+ \+= 1;'))
show('loops with a return, a push or an if alone (a library method?)', grep(r'\bfor [^{\n]*\{\n\s*(?:if|out\.push|words\.push)[^\n]*\n(?:[^\n]*\n){0,3}?\s*\}\n'))

print('4. conversions, comparisons and printing by hand')
show('impl From, TryFrom, FromStr, Display, PartialEq, Ord', grep(r'^impl[^{\n]*\b(?:From|TryFrom|FromStr|Display|PartialEq|Ord|Clone)\b[^{\n]*'))
show('functions that convert a number or a name', grep(r'fn (?:number|named|kind_of|kind_named|kind_name|layer_name|form)\b[^\n]*|fn new\(number: u32\)[^\n]*'))
show('a match that rebuilds an Option or a Result', grep(r'\bNone => None\b|Ok\(\(\)\) => Ok\(\(\)\)|Ok\((\w+)\) => Ok\(\1\)|Some\((\w+)\) => Ok\(\2\)|Err\(_\) => (?:Err\([^\n]*|0),|Ok\((\w+)\) => \3,'))
show('let .. else that returns an Err', grep(r'else \{\s*return Err\([^;]*;\s*\}'))
show('a match for equality', grep(r'\((\w+::\w+), \1\) => true'))

print('5. facts and parameters that travel together')
facts = defaultdict(set)
travel = defaultdict(set)
for p, n, f, t in functions():
    for c in clauses(t):
        facts[c].add(f'{p}:{f}')
    head = t.split('{')[0]
    m = re.search(r'\((.*?)\)(?:\s*->|\s*$|\s*(?:ensures|requires)|\n)', head, re.S)
    names = re.findall(r'\b(?:mut )?(\w+):', m.group(1)) if m else []
    for a in range(len(names)):
        for b in range(a + 2, len(names) + 1):
            travel[', '.join(names[a:b])].add(f'{p}:{f}')
show('clauses that stand in three functions or more', (f'{len(v)} times {c[:100]}' for c, v in facts.items() if len(v) >= 3))
best = {k: v for k, v in travel.items() if len(v) >= 3}
show('runs of parameters in three functions or more', (f'{len(v)} times ({k})' for k, v in sorted(best.items(), key=lambda kv: -len(kv[1])) if not any(k != o and k in o and best[o] >= v for o in best)))

print('6. buffers with a length, parallel arrays')
show('structs with an array and a count, a length or a head', (f'{p}: {m.group(1)}' for p, t in SOURCES.items() for m in re.finditer(r'struct (\w+)[^{;]*\{([^}]*)\}', t) if re.search(r': (?:&\'a mut )?\[', m.group(2)) and re.search(r'\b(?:count|len|length|head): u', m.group(2))))
show('structs with two arrays or more', (f'{p}: {m.group(1)}' for p, t in SOURCES.items() for m in re.finditer(r'struct (\w+)[^{;]*\{([^}]*)\}', t) if len(re.findall(r': \[', m.group(2))) >= 2))

print('7. switches on what to run')
show('a match on a call, a command or a bay that runs something', grep(r'match \*?(?:call|command|bay)\b[^\n]*'))
show('function pointers, dyn, tables of functions', grep(r': fn\(|&dyn |Box<dyn|\[fn'))

print('8. proofs')
answers = glob.glob(os.path.join(root, 'crates/*/proofs/**/Answers.antt'), recursive=True)


def only_search(path):
    lines = [l.strip() for l in open(path, encoding='utf-8') if l.strip() and not l.startswith(('use', '--', 'pub '))]
    return all(re.search(r'= search rules$', l) for l in lines)


show('answer files', answers if verbose else answers)
show('of them, those that only say `search rules`', [a for a in answers if only_search(a)])
