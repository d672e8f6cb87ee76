#!/usr/bin/env python3
# respell.py: brings the names of definitions, lemmas, fields and variables in specs/, proofs/, clauses and must-fail edits to snake case:
# `firstRefusal` to `first_refusal`, `largest-at-most` to `largest_at_most`; a lemma that would have a definition's name gets `_lem`. Types and
# modules keep their names; so do names that Rattle makes and names of its library. Run once, at the top, after the toolchain's port.py.
import glob, re

# A name of antt's: letters, digits, `_`, `-`, primes.
TOKEN = re.compile(r"(?<![\w'′-])[A-Za-z][A-Za-z0-9_'′-]*")
CAMEL = re.compile(r"[a-z][a-z0-9]*[A-Z]")
DECLARED = re.compile(r"(\s*)(?:(?:abbrev|unfoldable|pub) )*([a-z][^\s(){}:.,]*) :(?: |$)")

# A definition that the toolchain's script respelled to the name of a lemma, and the files in which that name is the lemma's.
MIXED = {'root_below': ('crates/exact_times/specs/Larger.antt', 'crates/exact_times/specs/Numbers.antt')}


def read(path):
    return open(path, encoding='utf-8').read()


def snake(name):
    name = re.sub(r'(?<=[a-z0-9])([A-Z])', lambda m: '_' + m.group(1).lower(), name)
    return name.replace('-', '_')


def walked(path):
    return path.endswith('/Proof.antt')


def declared(path):
    # the names that a file declares, and those of them that are fields of records
    found, fields, record = set(), set(), None
    for line in read(path).split('\n'):
        indent = len(line) - len(line.lstrip())
        if record is not None and line.strip() and indent <= record:
            record = None
        if re.match(r'\s*(?:pub )?record ', line):
            record = indent
        m = DECLARED.match(line)
        # what a walked proof states under a goal's own name, or as the function's theorem, is Rattle's name
        if m and not (walked(path) and re.search(r' : (tie\.|\{M : Type 1\}|data\.)', line)):
            (fields if record is not None else found).add(m.group(2))
    return found, fields


def main():
    antt = sorted(glob.glob('crates/*/specs/**/*.antt', recursive=True) + glob.glob('crates/*/proofs/**/*.antt', recursive=True))
    own = {path: declared(path) for path in antt}
    names = set().union(*(own[p][0] | own[p][1] for p in antt if not walked(p)))
    lemmas = set().union(*(own[p][0] for p in antt if not walked(p)))
    taken = {snake(n) for n in names if CAMEL.match(n)}
    clash = {n for n in lemmas if not CAMEL.match(n) and snake(n) in taken}
    sources = sorted(glob.glob('crates/*/src/**/*.rt', recursive=True))
    edits = sorted(glob.glob('crates/*/must-fail/*.edit'))
    fell = []
    for path in antt + sources + edits:
        text = read(path)
        dashed = {n for n in names if '-' in n}
        if walked(path):
            dashed |= {n for n in own[path][0] if '-' in n}
        # names that the file takes from elsewhere are not the repository's
        for m in re.finditer(r"^(?:ghost )?use ([\w.·]+)\.\{([^}]*)\}", text, re.M):
            if not m.group(1).startswith('Rattle.') or m.group(1).startswith('Rattle.std'):
                dashed -= {w.strip().split(' as ')[0] for w in m.group(2).split(',')}

        def one(m, text):
            word = m.group(0)
            before = text[m.start() - 1] if m.start() else ''
            lemma = before != '.' and path.endswith('.antt') and text[m.end():m.end() + 1] != '.'
            if lemma and path in MIXED.get(word, ()) and 'rootBefore ' != text[m.start() - 11:m.start()] and \
                    not text[:m.start()].rpartition('\n')[2].startswith('use Rattle.times.'):
                return word + '_lem'
            if lemma and word in clash and (word in dashed or '-' not in word):
                return snake(word) + '_lem'
            if CAMEL.match(word) or word in dashed:
                return snake(word)
            return word

        parts = re.split(r'(--[^\n]*|//[^\n]*)', text)
        for k in range(0, len(parts), 2):
            parts[k] = TOKEN.sub(lambda m, t=parts[k]: one(m, t), parts[k])
        new = ''.join(parts)
        if new != text:
            open(path, 'w', encoding='utf-8').write(new)
    print('respell: lemmas that got _lem: ' + ', '.join(sorted(snake(n) + '_lem' for n in clash) + sorted(n + '_lem' for n in MIXED)))


main()
