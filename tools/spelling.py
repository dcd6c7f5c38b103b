#!/usr/bin/env python3
"""Brings the names that this repository's own specs/ and proofs/ declare to today's spelling: snake case, and no dash.

  tools/spelling.py [--check]   at the top of the repository, once, after the kit's port.py; --check says what would meet, and writes nothing

A definition `kindOk` becomes `kind_ok`, a lemma `width-le` becomes `width_le`: a name without a dash can stand in an attribute of the code too.
A name that a library gives stays, and so do types, modules, and all names of src/ outside clauses. Where a lemma would get its definition's name,
it ends in `_lem`. A name declared in one file alone that would meet another name there gets a `'`. Must-fail edits and code spans of pages turn too.
"""
import os
import re
import sys

NAME = r'[^\s(){}.;,@"«»\[\]`|]+'
WORD = re.compile(NAME)
QUIET = re.compile(r'"(?:[^"\\\n]|\\.)*"|(?<![^\s(){}.;,@"«»])--[^\n]*|\{-.*?-\}', re.S)
USE = re.compile(r'\buse ([^\s;{]+?)(?:\.(\{[^;}]*\}))?(?: as ([^\s;]+))?(?=[;\s]|$)')
DECLARED = re.compile(r"(?m)^ *(?:(?:abbrev|unfoldable|pub|record|data|ruleset) +)*(" + NAME + r")(?=(?: \([^\n]*?\)| \{[^\n]*?\})* : |(?= = \())")
GHOST_USE = re.compile(r'ghost\s+use\b[^;]*;')
CLAUSE = re.compile(r'\b(?:requires|ensures)\*?\s*(?:\w+\s*)?\{|\bghost\s*(?:\w+\s*(?::\s*)?|=\s*)?\{')
RUST = re.compile(r'//[^\n]*|"(?:\\.|[^"\\])*"|\w+|\s+|.', re.S)


def snake(name):
    words = re.sub(r'(?<=[a-z0-9])[A-Z]', lambda m: '_' + m[0].lower(), name)
    return re.sub(r'(?<=[\w\'])-(?=\w)', '_', words)


def own(path, crates):
    steps = path.split('.')
    return steps[0] == 'Rattle' and len(steps) > 1 and steps[1] in crates or steps[0] in ('tie', 'goal')


def proof_of_function(path):
    return '/proofs/' in path and path.endswith(('/Proof.antt', '/Answers.antt', '/Invariants.antt'))


def texts(ending):
    for folder, folders, files in os.walk('crates'):
        folders[:] = sorted(f for f in folders if f != 'out')
        for file in sorted(files):
            if file.endswith(ending):
                yield os.path.join(folder, file)


def read(path):
    with open(path, encoding='utf-8') as file:
        return file.read()


def from_libraries(text, crates):
    """The names that a library gives in this file."""
    names = set()
    for path, listed, _ in USE.findall(text):
        if not own(path, crates):
            for item in (listed or '')[1:-1].split(','):
                names.update(item.split())
    return names


def declared(text):
    return {m[1] for m in DECLARED.finditer(QUIET.sub('', text))}


class Turner:
    def __init__(self):
        self.crates = set(os.listdir('crates'))
        self.table = {}   # of names that other files can cite
        self.homes = {}
        for path in texts('.antt'):
            if not proof_of_function(path):
                for name in declared(read(path)):
                    self.homes.setdefault(name, set()).add(path)
        for name in self.homes:
            if snake(name) != name and name[0].islower() or '-' in name and snake(name) != name:
                self.table[name] = snake(name)
        # names that fall together: the lemma gives way
        by_new = {}
        for name in self.homes:
            by_new.setdefault(self.table.get(name, name), []).append(name)
        self.met = {}
        for new, names in by_new.items():
            if len(names) > 1:
                self.met[new] = names
                lemmas = [n for n in names if '-' in n]
                for lemma in lemmas if len(lemmas) < len(names) else lemmas[1:]:
                    self.table[lemma] = new + '_lem'
        # a lemma that port.py spelled alike already, where one file has both
        for path in texts('.antt'):
            text = read(path)
            for it in clashes(text, self.table):
                self.table[it[1]] = it[1] + '_lem'

    def table_for(self, text, path):
        table = dict(self.table)
        if proof_of_function(path):
            needs = re.compile(r'(?m)^ *(' + NAME + r') : tie\.')
            labels = set(needs.findall(text))
            for name in declared(text) - labels:
                if snake(name) != name:
                    table.setdefault(name, snake(name))
        for name in from_libraries(text, self.crates):
            table.pop(name, None)
        return table

    def code(self, text, table, fields):
        """The text with its names turned. Behind a dot stands a field, or a name of a module."""
        heads = [it.span(1) for it in USE.finditer(text)]

        def one(m):
            if any(start <= m.start() < end for start, end in heads):
                return m[0]
            if text[:m.start()].endswith(('tie.', 'goal.')):
                return m[0]
            if m.start() and text[m.start() - 1] == '.' and m[0] not in fields:
                return m[0]
            return table.get(m[0], m[0])
        return WORD.sub(one, text)

    def antt(self, text, path):
        table = self.table_for(text, path)
        fields = set(table)
        if proof_of_function(path):
            fields = set()
        out, at = [], 0
        for m in QUIET.finditer(text):
            out.append(self.code(text[at:m.start()], table, fields))
            out.append(m[0] if m[0][0] == '"' else self.comment(m[0], table))
            at = m.end()
        out.append(self.code(text[at:], table, fields))
        return ''.join(out)

    def comment(self, text, table):
        def one(m):
            return table[m[0]] if m[0] in table and re.search('[a-z0-9][A-Z]', m[0]) else m[0]
        text = WORD.sub(one, text)
        return re.sub(r'`[^`\n]*`', lambda m: self.code(m[0], table, set(table)), text)

    def rt(self, text, path):
        table = self.table_for(text, path)
        out, at = [], 0
        while at < len(text):
            clause = CLAUSE.match(text, at) if text[at] in 'reg' and (at == 0 or not text[at - 1].isalnum() and text[at - 1] != '_') else None
            use = GHOST_USE.match(text, at) if text.startswith('ghost', at) else None
            if use:
                out.append(self.code(use[0], table, set(table)))
                at = use.end()
            elif clause:
                end, depth = clause.end(), 1
                while depth:
                    depth += {'{': 1, '}': -1}.get(text[end], 0)
                    end += 1
                out.append(text[at:clause.end()] + self.code(text[clause.end():end], table, set(table)))
                at = end
            else:
                m = RUST.match(text, at)
                out.append(self.comment(m[0], table) if m[0].startswith('//') else m[0])
                at = m.end()
        return ''.join(out)

    def edit(self, text):
        lines = []
        for line in text.split('\n'):
            if line.startswith(('old: ', 'new: ')):
                line = line[:5] + self.code(line[5:], self.table, set(self.table))
            lines.append(line)
        return '\n'.join(lines)

    def page(self, text):
        def one(m):
            return self.code(m[0], self.table, set(self.table))
        return re.sub(r'`[^`\n]*`', one, text)


def clashes(old, table):
    """Names of one file that were two and are one now: names of paths and of fields aside."""
    code = QUIET.sub(' ', old)
    code = re.sub(r'\buse [^\s;{]+', ' ', code)
    had = {m[0] for m in WORD.finditer(code) if code[m.start() - 1:m.start()] != '.'}
    return sorted((n, table[n]) for n in had if n in table and table[n] in had)


def main():
    check = '--check' in sys.argv[1:]
    turner = Turner()
    if check:
        for new, names in sorted(turner.met.items()):
            print('meet:', new, '<-', [(n, turner.table.get(n, n), sorted(turner.homes[n])[:2]) for n in names])
    for path in list(texts('.antt')) + list(texts('.rt')) + list(texts('.edit')):
        old = read(path)
        if path.endswith('.antt'):
            new = turner.antt(old, path)
        elif path.endswith('.rt'):
            new = turner.rt(old, path)
        else:
            new = turner.edit(old)
        if check:
            if path.endswith(('.antt', '.rt')):
                for it in clashes(old, turner.table_for(old, path)):
                    if path.endswith('.antt'):
                        print('clash:', path, it)
                if path.endswith('.rt'):
                    table = turner.table_for(old, path)
                    used = {table[n] for use in GHOST_USE.findall(old) for n in WORD.findall(use) if n in table}
                    hidden = used & set(re.findall(r'\b(\w+): (?=[&\w\[(])', old))
                    if hidden:
                        print('hidden:', path, sorted(hidden))
        elif new != old:
            with open(path, 'w', encoding='utf-8') as file:
                file.write(new)
    if not check:
        pages = [os.path.join(f, it) for top in ('docs', 'harness', 'strips') for f, _, its in os.walk(top) for it in its if it.endswith('.md')]
        for path in pages + [it for it in os.listdir('.') if it.endswith('.md')]:
            old = read(path)
            new = turner.page(old)
            if new != old:
                with open(path, 'w', encoding='utf-8') as file:
                    file.write(new)


main()
