#!/usr/bin/env python3
# Brings the repository's own antt names to today's spelling, once, after the kit's port.py: words in snake case, and a dash only
# where it joins two names, as in `low-length`. Names of functions of src/, of files and of the kit stay as they are.
#
# usage: tools/port-names.py          at the top of the repository; it runs no second time
#
# A name is one of ours where specs/ or a file directly in proofs/ defines it. It is changed wherever it stands as a whole word: in antt,
# in clauses, in must-fail edits, and between backticks in the pages.
import glob, os, re, sys

word = re.compile(r'[^\s(){}\[\];,."`@]+')
head = re.compile(r'^\s*(?P<kind>abbrev pub|abbrev|unfoldable pub|unfoldable|pub)?\s*(?P<name>[^\s(){}\[\];,."`@:]+) :(?= |$)')
case = re.compile(r'^\s*\| (?P<name>[^\s(){}\[\];,."`@:]+) :')
used = re.compile(r'use (?P<path>[A-Za-z_.0-9\'·]+)\.\{(?P<names>[^}]*)\}')

# A lemma of its function's name gets `_lem`; `slots-of` would be the name of a definition of crate arith.
given = {name: name.replace('-', '_') + '_lem' for name in (
    'can-go', 'first-fault', 'first-to-go', 'in-front', 'is-length', 'is-power', 'power-above', 'told-build', 'after_line')}
given['slots-of'] = 'slots_here'
# `first_below` is a lemma in one file and a field elsewhere.
given_in = {'crates/stuck/specs/PlainComplete.antt': {'first_below': 'first_below_lem'}}

def antt():
    for pattern in ('crates/*/specs/*.antt', 'crates/*/specs/*/*.antt', 'crates/*/proofs/*.antt'):
        yield from sorted(glob.glob(pattern))

def snake(name):
    return re.sub(r'(?<=[a-z0-9])([A-Z])', lambda m: '_' + m.group(1).lower(), name)

def collect():
    functions, names, theirs = set(), set(), set()
    for file in antt():
        for line in open(file, encoding='utf-8').read().split('\n'):
            found = head.match(line) or case.match(line)
            if found and not line.lstrip().startswith('--'):
                names.add(found.group('name'))
                if (found.groupdict().get('kind') or '').startswith(('abbrev', 'unfoldable')):
                    functions.add(found.group('name'))
    for file in glob.glob('crates/**/*.antt', recursive=True) + glob.glob('crates/*/src/**/*.rt', recursive=True):
        for found in used.finditer(open(file, encoding='utf-8').read()):
            if found.group('path').startswith(('Rattle.std', 'mathlib', 'Prim', 'borrow')):
                for name in found.group('names').split(','):
                    theirs.add(name.strip())
    return functions, names, theirs

def respelled():
    functions, names, theirs = collect()
    words = {snake(f) for f in functions if '-' not in f and f[0].islower()}
    words |= {t for t in theirs if re.fullmatch(r'[a-z][a-z_]*', t) and t not in ('sym', 'ap', 'subst', 'refl', 'arith', 'rules')}
    words |= {'append', 'set', 'lt', 'le', 'eq', 'mod', 'div', 'xor', 'cons', 'drop', 'take'}
    words -= {'at', 'of', 'in', 'is', 'no', 'not', 'one', 'both', 'all', 'or', 'and', 'to'}
    changed = {}
    for name in sorted(names - theirs):
        if not re.fullmatch(r"[A-Za-z0-9_'₀-₉-]+", name):
            continue
        if name[0].isupper() and '-' not in name:
            continue
        parts = [snake(p) if p and p[0].islower() else p for p in name.split('-')]
        made = given.get(name) or ('-' if all(p in words for p in parts) else '_').join(parts)
        if made and made != name:
            changed[name] = made
    return changed, names, theirs

def main():
    if os.path.exists('docs/PORT.md'):
        sys.exit('port-names: the names have been changed here (docs/PORT.md)')
    changed, names, theirs = respelled()
    told = {}
    for old, new in changed.items():
        told.setdefault(new, []).append(old)
    for new, olds in told.items():
        if len(olds) > 1 or new in names or new in theirs:
            print('falls together:', new, olds, 'defined' if new in names else '', 'of the kit' if new in theirs else '')
    if '--list' in sys.argv:
        for old, new in changed.items():
            print(old, new)
        return
    def turn(text, more={}):
        return word.sub(lambda m: more.get(m.group(0)) or changed.get(m.group(0), m.group(0)), text)
    files = glob.glob('crates/**/*.antt', recursive=True) + glob.glob('crates/*/src/**/*.rt', recursive=True)
    files += glob.glob('crates/*/must-fail/*.edit')
    for file in files:
        text = open(file, encoding='utf-8').read()
        if file.endswith('.rt'):
            text2 = '\n'.join(l if l.lstrip().startswith('//') else turn(l) for l in text.split('\n'))
        else:
            text2 = turn(text, given_in.get(file, {}))
        if text2 != text:
            open(file, 'w', encoding='utf-8').write(text2)
    for file in glob.glob('*.md') + glob.glob('docs/*.md'):
        text = open(file, encoding='utf-8').read()
        text2 = re.sub(r'`[^`\n]*`', lambda m: turn(m.group(0)), text)
        if text2 != text:
            open(file, 'w', encoding='utf-8').write(text2)
    print(len(changed), 'names respelled')

main()
