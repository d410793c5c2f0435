#!/usr/bin/env python3
"""tools/respell.py [FOLDER]: brings the project's own definitions and lemmas to snake case, once, on a tree that has the paths of today's Rattle.

tools/respelled.txt has a line for each name: the old spelling and the new one. Behind some stands a third word: `pages` where sources have the new spelling
already, and only pages and wrong programs have the old one; or the crate in which alone the name changes, since it fell together with a name of another crate.
A lemma that would fall together with its function ends in `_lem`, and `takeAll`, which would fall together with the library's `take_all`, is `take_each`.
Names change in specs/, proofs/, in the clauses and imports of src/, in wrong programs, and where the pages quote them. Functions of src/, exported names, strings,
inputs and outputs keep theirs."""
import glob
import os
import re
import sys

home = os.path.dirname(os.path.dirname(os.path.abspath(__file__)))
root = sys.argv[1] if len(sys.argv) > 1 else home
everywhere, pages, within = {}, {}, {}
for line in open(os.path.join(home, 'tools', 'respelled.txt')):
    old, new, *where = line.split()
    if not where:
        everywhere[old] = new
    elif where == ['pages']:
        pages[old] = new
    else:
        within.setdefault(where[0], {})[old] = new
quoted = {**pages, **everywhere}
name = re.compile(r"(?<![\w'◌·-])[A-Za-z_][A-Za-z0-9_'₀-₉]*(?:-[A-Za-z0-9_'₀-₉]+)*(?![\w'◌·])")
camel = re.compile(r'^[a-z][a-z0-9]*[A-Z]')


def all_names(text, new):
    return name.sub(lambda m: new.get(m[0], m[0]), text)


def plain_text(text):
    """Words for people: names of two humps wherever they stand, names with dashes only where they are quoted."""
    text = re.sub(r'`[^`\n]*`', lambda m: all_names(m[0], quoted), text)
    return name.sub(lambda m: quoted.get(m[0], m[0]) if camel.match(m[0]) else m[0], text)


def antt(text, new=everywhere):
    lines = []
    for line in text.split('\n'):
        at = re.search(r'(?:^|\s)--(?=\s|$)', line)
        cut = at.start() if at else len(line)
        lines.append(all_names(line[:cut], new) + plain_text(line[cut:]))
    return '\n'.join(lines)


def closing(text, at):
    depth = 0
    for i in range(at, len(text)):
        depth += (text[i] == '{') - (text[i] == '}')
        if depth == 0:
            return i + 1
    return len(text)


def code(text, new=everywhere):
    """Imports of definitions, clauses and comments of a source file; nothing else."""
    done, at = [], 0
    for m in re.finditer(r'^ghost use [^;]*;|\b(?:requires|ensures|ghost)\b[^{};\n]*\{|//[^\n]*', text, re.M):
        if m.start() < at:
            continue
        end = m.end()
        if m[0].endswith('{'):
            end = closing(text, m.end() - 1)
        part = text[m.start():end]
        done += [text[at:m.start()], plain_text(part) if part.startswith('//') else all_names(part, new)]
        at = end
    return ''.join(done) + text[at:]


def edit(text):
    return antt(text, quoted) if re.search(r'^file: (specs|proofs)/', text, re.M) else plain_text(text)


def turn(pattern, how):
    for path in glob.glob(os.path.join(root, pattern), recursive=True):
        old = open(path, encoding='utf-8').read()
        text = how(old)
        if text != old:
            open(path, 'w', encoding='utf-8').write(text)


turn('crates/*/specs/**/*.antt', antt)
turn('crates/*/proofs/**/*.antt', antt)
turn('crates/*/src/**/*.rt', code)
for crate, new in within.items():
    turn(f'crates/{crate}/specs/**/*.antt', lambda text: antt(text, new))
turn('crates/*/must-fail/*.edit', edit)
turn('docs/mutations.txt', lambda text: '\n\n'.join(edit(block) for block in text.split('\n\n')))
turn('docs/**/*.md', plain_text)
turn('README.md', plain_text)
