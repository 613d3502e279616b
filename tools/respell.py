#!/usr/bin/env python3
"""respell.py [-x | --map FILE]

Run once at the top of a checkout, after the kit's port.py: brings the names that this repository declares in antt to today's spelling.
Words are in snake case, types and modules in camel case. Definitions, fields and constructors have no dash. A lemma keeps a dash behind a
word of its statement, as `contains-exist`, and has else an underscore. It goes by whole words, in antt, in the clauses of .rt files, in must-fail
edits and in the code spans of pages. --map writes what became what;
-x writes nothing and lists the names that fall together. Functions of src/, strings, inputs and outputs keep their names.
"""
import collections
import os
import re
import sys

WORD = re.compile(r'[^\s(){}.;,@"«»]+')
DECLARED = re.compile(r'^( *)((?:pub |abbrev |unfoldable )*)((?:[^\s(){}.;,@"«»]+ )*[^\s(){}.;,@"«»]+) :(?= |$)')
BLOCK = re.compile(r'^( *)(?:pub )?(data|record) ')
QUIET = re.compile(r'"(?:[^"\\\n]|\\.)*"|--[^\n]*')
CLAUSE = re.compile(r'ghost use [^;]*;|(?:requires|ensures)\*?(?: \w+)? \{|ghost (?:\w+: )?\{')
# Lemmas that the kit's script gave the spelling of the definition that they are of.
TAKEN = {
    'crates/bindings_request/proofs/Asking.antt': {'of_function': 'of_function-at'},
    'crates/bindings_request/proofs/Needing.antt': {'of_function': 'of_function-at'},
    'crates/bindings_request/proofs/Adding.antt': {'of_function': 'of_function-at'},
    'crates/bindings_request/proofs/Modules.antt': {'of_function': 'of_function-at'},
    'crates/clearance/proofs/Main.antt': {'only_next': 'only_next-is'},
    'crates/rounds/proofs/Numbers.antt': {'by_flags': 'by_flags-each'},
    'crates/strays/proofs/Lowers.antt': {'lower_of': 'lower_of-lower'},
    'crates/type_table/proofs/Filled.antt': {'row_type': 'row_type-is'},
}


def files(*kinds):
    for top in ('crates', 'docs', 'host', 'tests', 'examples', '.'):
        for folder, folders, names in os.walk(top):
            folders[:] = sorted(f for f in folders if f not in ('out', '.git') and not (f == 'target' and top == 'host')) if top != '.' else []
            for name in sorted(names):
                if name.endswith(kinds):
                    yield os.path.join(folder, name)


def snake(word):
    if not re.match(r'[a-z]', word):
        return word
    return re.sub(r'(?<=[a-z0-9])([A-Z])', lambda m: '_' + m[1].lower(), word)


def declarations(path):
    """Yields name, kind (field, definition, lemma, law) and statement of what a file declares."""
    lines = open(path).read().split('\n')
    in_proof = path.endswith('Proof.antt')
    block, at = None, 0
    for n, line in enumerate(lines):
        if line.lstrip().startswith('--') or not line.strip():
            continue
        indent = len(line) - len(line.lstrip())
        if block and indent <= at:
            block = None
        m = BLOCK.match(line)
        if m:
            block, at = m[2], len(m[1])
            continue
        m = DECLARED.match(line)
        if not m or m[3].split()[0] in ('let', 'in', 'elim', '|', 'where', 'λ'):
            continue
        statement = line
        for more in lines[n + 1:]:
            first = WORD.match(more.strip())
            if not more.strip() or first and first[0] in m[3].split() or more.lstrip().startswith('unfolding '):
                break
            statement += '\n' + more
        if in_proof and re.search(r': (?:\(\w+ : ℕ\) → )?(?:\S*tie|\S*lts)\.', statement):
            yield m[3], 'goal', statement
            continue
        kind = 'field' if block else 'definition' if m[2].strip() not in ('', 'pub') or '/specs/' in path else 'law' if in_proof else 'lemma'
        for name in m[3].split():
            if name not in ('pub', 'abbrev', 'unfoldable'):
                yield name, kind, statement[len(m[0]):]


def spelled(name, kind, statement):
    parts = [snake(p) for p in name.split('-')]
    if kind == 'law' or len(parts) == 1:
        return '-'.join(parts)
    if kind in ('field', 'definition'):
        return '_'.join(parts)
    words = {'-'.join(snake(p) for p in w.split('-')) for w in WORD.findall(statement)}
    new, known = parts[0], parts[0] in words
    for p in parts[1:]:
        new += ('-' if known else '_') + p
        known = known and p in words
    return new


def imported():
    """What files take from the kit: its names keep their spelling."""
    own = {c for c in os.listdir('crates')}
    for path in files('.antt', '.rt'):
        for m in re.finditer(r'\buse ([\w.]+)\.\{([^}]*)\}', open(path).read()):
            home = m[1].split('.')
            if not (home[0] == 'Rattle' and home[1] in own):
                yield from (it.split(' as ')[0].strip() for it in m[2].split(','))


def table():
    found, protected, fields = collections.defaultdict(dict), set(), set()
    for path in files('.antt'):
        for name, kind, statement in declarations(path):
            if kind == 'goal':
                protected.add(name)
            elif name != '-' and (re.search('[A-Z-]', name) and re.match('[a-zA-Z]', name)):
                found[name].setdefault(kind, []).append(spelled(name, kind, statement))
    kept = set(imported())
    turned = {'rangeIs': 'RangeIs'}
    for path in files('.antt'):
        for name in WORD.findall(re.sub('--.*', '', open(path).read())):
            if re.match('[a-z]+[A-Z][a-zA-Z0-9]*$', name) and name not in found and name not in kept and name != 'rangeIs':
                turned[name] = snake(name)
    for name, kinds in found.items():
        if name in protected and '-' in name or name in kept:
            continue
        all_of = [s for k in kinds for s in kinds[k]]
        fields.update([name] if set(kinds) == {'field'} else [])
        new = kinds['field'][0] if 'field' in kinds else kinds['definition'][0] if 'definition' in kinds else max(set(all_of), key=lambda s: (all_of.count(s), s))
        if new != name:
            turned[name] = new
    return turned, fields


def clauses(text):
    """The spans of a .rt file that antt reads."""
    for m in CLAUSE.finditer(text):
        if m[0].endswith(';'):
            yield m.start(), m.end()
            continue
        depth, n = 1, m.end()
        while depth and n < len(text):
            depth += {'{': 1, '}': -1}.get(text[n], 0)
            n += 1
        yield m.end(), n


def turn(text, turned, skip=lambda text, m: False):
    return WORD.sub(lambda m: m[0] if skip(text, m) else turned.get(m[0], m[0]), text)


def behind_dot(text, m):
    return text[max(0, m.start() - 1):m.start()] == '.'


def in_proof(text, m):
    return bool(re.search(r'(?:\bbefore|(?<![\w.])c|tie|lts)\.$', text[max(0, m.start() - 8):m.start()]))


def turn_antt(path, text, turned):
    skip = in_proof if path.endswith('Proof.antt') else lambda text, m: False
    out, last = '', 0
    for m in QUIET.finditer(text):
        out += turn(text[last:m.start()], turned, skip)
        out += turn_comment(m[0], turned) if m[0].startswith('--') else m[0]
        last = m.end()
    return out + turn(text[last:], turned, skip)


def turn_comment(text, turned):
    plain = {k: v for k, v in turned.items() if '-' not in k}
    text = re.sub(r'`[^`\n]*`', lambda m: '`' + turn(m[0][1:-1], turned) + '`', text)
    return turn(text, plain)


def turn_rt(text, turned):
    out, last = '', 0
    for a, b in clauses(text):
        if a < last:
            continue
        out += turn_code(text[last:a], turned) + turn(text[a:b], turned)
        last = b
    return out + turn_code(text[last:], turned)


def turn_code(text, turned):
    return re.sub(r'//[^\n]*', lambda m: turn_comment(m[0], turned), text)


def turn_edit(text, turned):
    antt = re.search(r'(?m)^file: .*\.antt', text)
    if antt:
        return re.sub(r'(?m)^(old|new):.*$', lambda m: turn(m[0], turned), text)
    plain = {k: v for k, v in turned.items() if '-' not in k}
    return re.sub(r'(?m)^(old|new):.*(?:requires|ensures).*$', lambda m: turn(m[0], plain), text)


def main(argv):
    turned, fields = table()
    present = collections.defaultdict(set)
    for path in files('.antt', '.rt'):
        for w in WORD.findall(open(path).read()):
            present[w].add(path)
    back = collections.defaultdict(set)
    for old, new in turned.items():
        back[new].add(old)
    for new, olds in sorted(back.items()):
        here = set().union(*(present[o] for o in olds))
        antt = {p for p in present[new] & here if p.endswith('.antt')}
        if len(olds) > 1 or antt:
            if '-x' in argv:
                print('fall together:', new, sorted(olds), sorted(antt)[:3])
            for o in olds:
                if '-' in o and o not in fields:
                    turned[o] = '-'.join(snake(p) for p in o.split('-'))
    turned = {o: n for o, n in turned.items() if o != n}
    if '-x' in argv:
        print(len(turned))
        return turned
    for path in files('.antt', '.rt', '.edit', '.md'):
        text = open(path).read()
        if path.endswith('.antt'):
            new = turn_antt(path, turn(text, TAKEN.get(path, {}), behind_dot), turned)
        elif path.endswith('.rt'):
            new = turn_rt(text, turned)
        elif path.endswith('.edit'):
            new = turn_edit(text, turned)
        else:
            new = re.sub(r'`[^`\n]*`', lambda m: '`' + turn(m[0][1:-1], turned) + '`', text)
        if new != text:
            with open(path, 'w') as f:
                f.write(new)
    if '--map' in argv:
        with open(argv[argv.index('--map') + 1], 'w') as f:
            f.write(''.join('%s\t%s\n' % it for it in sorted(turned.items())))
    print('%d names turned' % len(turned))


if __name__ == '__main__':
    main(sys.argv[1:])
