#!/usr/bin/env python3
"""Bring the repository's own definitions and lemmas to today's spelling, after port.py: values, lemmas and locals in snake case, a prime as an
apostrophe. It reads the names that specs/ and proofs/ declare, and turns each wherever it stands: in specs/, proofs/, in the clauses of src/, in
must-fail/ and in the pages. Types and facts are in camel case already. Functions of src/, exported names, strings, inputs and outputs stay.

    python3 tools/port-names.py           turns the tree at the top of which it is run
    python3 tools/port-names.py --list    prints each name and what it becomes, and names that would fall together
"""
import pathlib
import re
import sys

TOP = pathlib.Path('.')
DECLARED = re.compile(r"^\s*(?:(?:pub|abbrev|unfoldable|data|record)\s+)*([^\s:(){}\[\].,;\"λ]+)(?:\s+[({][^(){}]*[)}])*\s+:(?:\s|$)")
TOKEN = re.compile(r"[^\s(){}\[\].,;\"`|]+")
CAMEL = re.compile(r"^[a-z][a-z0-9]*[A-Z][A-Za-z0-9'_]*$")
# Kept, since a library, the check or a Rust item has the name.
KEPT = set()


def snake(name):
    # lowerCamel: a capital, or a run of them, begins a word
    name = name.replace('′', "'")
    head = re.match(r"^[A-Z]", name)
    if not head:
        name = re.sub(r"(?<=[a-z0-9])([A-Z])", lambda m: '_' + m.group(1).lower(), name)
    return re.sub(r"-(?=.)", '_', name) if not name.startswith('-') else name


def antt_files():
    return sorted(p for p in TOP.glob('crates/*/*/**/*.antt') if '/out/' not in str(p))


def library_names():
    """What files of the repository bring in from elsewhere."""
    found = set()
    ours = {p.name for p in TOP.glob('crates/*')}
    for p in antt_files() + sorted(TOP.glob('crates/*/src/*.rt')):
        for m in re.finditer(r"(?:ghost )?use\s+([^\s{;]+?)(?:\.\{([^}]*)\}| as [^\s;]+|;|$)", p.read_text(), re.M):
            path = m.group(1).split('.')
            own = path[0] == 'Rattle' and len(path) > 1 and path[1] in ours
            if not own:
                for n in (m.group(2) or '').split(','):
                    found.add(n.strip().split(' as ')[0])
    return found


def declared_names():
    found = {}
    for p in antt_files():
        for line in p.read_text().split('\n'):
            m = DECLARED.match(line)
            if m and not line.lstrip().startswith(('let ', 'use ', '--', 'elim')):
                found.setdefault(m.group(1), set()).add(str(p))
    return found


def turned():
    library = library_names()
    table = {}
    declared = declared_names()
    for name in declared:
        if name in KEPT or name[0].isupper() or '◌' in name:
            continue
        new = snake(name)
        if new == name:
            continue
        if name in library:
            print('library:', name, file=sys.stderr)
            continue
        table[name] = new
    # a lemma that would have its function's name
    values = {new for name, new in table.items() if CAMEL.match(name)} | {n for n in declared if n not in table and '-' not in n}
    for name, new in table.items():
        if not CAMEL.match(name) and new in values:
            table[name] = new + '_lem'
    return table


def turn_antt(text, table):
    lines = []
    for line in text.split('\n'):
        lines.append(TOKEN.sub(lambda m: table.get(m.group(0), m.group(0)), line).replace('′', "'"))
    return '\n'.join(lines)


def turn_rt(text, table):
    """A lowerCamel word stands in Rust nowhere but in clauses, ghost items and comments."""
    return re.sub(r"(?<![\w'/.-])([a-z][a-z0-9]*[A-Z]\w*)(?![\w'])|(?<=\.\{)([a-z][a-z0-9]*[A-Z]\w*)", lambda m: table.get(m.group(0), m.group(0)), text)


def turn_page(text, table):
    """Names stand in backticks."""
    return re.sub(r"`[^`\n]+`", lambda m: TOKEN.sub(lambda t: table.get(t.group(0), t.group(0)), m.group(0)), text)


def turn_edit(text, table, declared):
    """The forms that port.py turns elsewhere: fields are written tight, operators with their places, paths in one form."""
    text = re.sub(r"Rattle·(\w+)·specs\.specs|Rattle·(\w+)", lambda m: f'Rattle.{m.group(1)}.specs' if m.group(1) else f'Rattle.{m.group(2)}', text)
    text = re.sub(r"(?<![\w'])_([^\s\w{},]+\w?)_(?![\w'])", r'◌\1◌', text)
    text = re.sub(r"(?<=[\w')\]]) \.(\w)", r'.\1', text)
    while True:
        tight = re.sub(r"(?<=[\w')] )\(([\w']+(?:\.\w+)+)\)", r'\1', text)
        if tight == text:
            break
        text = tight
    text = re.sub(r"\{ λ r\. ⌜ (.*) ⌝ \}", lambda m: '{ ' + re.sub(r'\br\b', 'result', m.group(1)) + ' }', text)
    text = re.sub(r"\{ ⌜ (.*) ⌝ \}", r'{ \1 }', text)
    text = turn_antt(text, table)
    return TOKEN.sub(lambda m: snake(m.group(0)) if CAMEL.match(m.group(0)) and snake(m.group(0)) in declared else m.group(0), text)


DERIVES = re.compile(r"#\[derive\(Drop\)\]\n(?=(?:pub )?(?:struct|enum) )")


def turn_source(text):
    """A plain type is copied, as it was; each root file asks for the tactics."""
    return DERIVES.sub('#[derive(Clone, Copy)]\n', text)


def with_tactics(text):
    if '#![tactic(auto)]' in text:
        return text
    lines = text.split('\n')
    at = next(i for i, l in enumerate(lines) if not l.startswith('//'))
    return '\n'.join(lines[:at] + ['#![tactic(auto)]', ''] + lines[at:])


def main():
    table = turned()
    if '--list' in sys.argv:
        for name in sorted(table):
            print(name, table[name])
        for p in antt_files():
            tokens = set(TOKEN.findall(p.read_text()))
            after = {}
            for t in tokens:
                after.setdefault(table.get(t, t).replace('′', "'"), set()).add(t)
            for new, olds in after.items():
                if len(olds) > 1:
                    print('FALL TOGETHER', p, new, sorted(olds))
        return
    for p in antt_files():
        old = p.read_text()
        own = dict(table)
        if str(p) == 'crates/ship/proofs/Split.antt':
            own['in_both'] = 'in_both_lem'
        new = turn_antt(old, own)
        if new != old:
            p.write_text(new)
    for p in sorted(TOP.glob('crates/*/src/*.rt')):
        old = p.read_text()
        new = turn_source(turn_rt(old, table))
        if p.name in ('lib.rt', 'main.rt'):
            new = with_tactics(new)
        if new != old:
            p.write_text(new)
    declared = set(declared_names())
    for p in sorted(TOP.glob('crates/*/must-fail/*.edit')):
        old = p.read_text()
        new = '\n'.join(l if not l.startswith(('old: ', 'new: ')) else turn_edit(l, table, declared) for l in old.split('\n'))
        if new != old:
            p.write_text(new)
    for p in [TOP / 'README.md', *sorted(TOP.glob('docs/**/*.md'))]:
        if p.exists() and p.name != 'PORT.md':
            old = p.read_text()
            new = turn_page(old, table)
            if new != old:
                p.write_text(new)


main()
