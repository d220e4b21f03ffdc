#!/usr/bin/env python3
"""Counts the places of docs/DESIGN-PASS.md in crates/*/src: how much of an older Rattle's forms a reader meets.

  tools/design_pass.py [FOLDER] [--list] [--point N]

FOLDER is the top of a tree (this one if none is given), --list names each place, --point takes one point alone.
"""
import argparse
import collections
import pathlib
import re

KEYWORDS = set('let mut if else while for in loop match return fn pub struct enum use mod const as break continue true false self Self crate impl trait where ref move'.split())
WHOLE = r'(?:u8|u16|u32|u64|usize)'


def code(text):
    """A file without its comments; strings keep their length."""
    return re.sub(r'//[^\n]*', '', text)


def blocks(text, start):
    """The text from the brace at `start` to its closing one."""
    depth = 0
    for i in range(start, len(text)):
        depth += {'{': 1, '}': -1}.get(text[i], 0)
        if depth == 0:
            return text[start:i + 1]
    return text[start:]


class Function:
    def __init__(self, where, name, params, answer, clauses, body):
        self.where, self.name, self.params, self.answer, self.clauses, self.body = where, name, params, answer, clauses, body


def functions(where, text):
    """Every function with a body."""
    for found in re.finditer(r'^[ \t]*(?:#\[[^\n]*\]\n[ \t]*)*(?:pub )?(?:extern "C" )?fn (\w+)(<[^>]*>)?\(', text, re.M):
        at, depth = found.end(), 1
        while depth:
            depth += {'(': 1, ')': -1}.get(text[at], 0)
            at += 1
        params = text[found.end():at - 1]
        answer = re.match(r'\s*->\s*([^\n{]+?)\s*(?=\n|\{)', text[at:])
        rest = at + (answer.end() if answer else 0)
        clauses = ''
        while True:
            clause = re.match(r'\s*(?:requires|ensures|ghost)\*?(?:\s+\w+:?)?\s*(?=\{)', text[rest:])
            if not clause:
                break
            inner = blocks(text, rest + clause.end())
            clauses += ' ' + clause.group().strip() + ' ' + inner
            rest += clause.end() + len(inner)
        body = re.match(r'\s*(?=\{)', text[rest:])
        if not body:
            continue
        line = text.count('\n', 0, found.start(1)) + 1
        yield Function(f'{where}:{line}', found.group(1), params, answer.group(1) if answer else '', clauses, blocks(text, rest + body.end()))


def shape(text):
    """Its tokens, with every name and number made one."""
    out = []
    for token in re.findall(r'b?"[^"]*"|\w+|[^\w\s]', text):
        if re.match(r'b?"', token):
            out.append('S')
        elif token in KEYWORDS:
            out.append(token)
        elif re.match(r'\w', token):
            out.append('N' if token[0].isdigit() else 'I')
        else:
            out.append(token)
    return ' '.join(out)


def types(where, text):
    """Every enum and struct: its kind, name, body and place."""
    for found in re.finditer(r'\b(enum|struct) (\w+)(?:<[^>]*>)?\s*\{', text):
        yield found.group(1), found.group(2), blocks(text, found.end() - 1), f'{where}:{text.count(chr(10), 0, found.start()) + 1}'


def point_1(files, each):
    for where, text in files:
        for kind, name, body, place in types(where, text):
            if kind == 'enum':
                cases = re.findall(r'\b([A-Z]\w*)\s*(\([^)]*\))?\s*[,}]', body)
                if len(cases) == 2 and any(payload for _, payload in cases):
                    yield 'own Option or Result', place, name
            elif re.search(r':\s*bool\b', body) and body.count(':') > 1:
                yield 'a flag beside a value', place, name
        for f in each[where]:
            for name in re.findall(r'\b(kind|stage|sheet|second_kind)\s*:\s*' + WHOLE, f.params):
                yield 'a number for a kind', f.where, f'{f.name} {name}'
            for given in re.findall(r'let [^=;]+= (\w+) else \{\s*return (\w+);\s*\}', f.body):
                if given[0] == given[1]:
                    yield 'a refusal passed on by hand', f.where, f'{f.name} {given[0]}'
        for kind, name, body, place in types(where, text):
            for field in re.findall(r'\b(kind|stage|sheet)\s*:\s*' + WHOLE, body):
                yield 'a number for a kind', place, f'{name}.{field}'


def point_2(files, each):
    groups = collections.defaultdict(list)
    for where, _ in files:
        for f in each[where]:
            form = shape(f.body)
            if len(form.split()) >= 14:
                groups[form].append((f.where, f.name))
    for members in groups.values():
        if len(members) > 1:
            for place, name in members:
                yield 'functions of one shape', place, name + ' ~ ' + ', '.join(n for _, n in members if n != name)
    groups = collections.defaultdict(list)
    for where, text in files:
        for kind, name, body, place in types(where, text):
            if kind == 'struct' and body.count(':') >= 2:
                fields = tuple(re.findall(r'(\w+)\s*:', body))
                groups[fields].append((place, name))
    for fields, members in groups.items():
        if len(members) > 1:
            for place, name in members:
                yield 'types with the same fields', place, name


def point_3(files, each):
    for where, _ in files:
        for f in each[where]:
            for found in re.finditer(r'\b(while|loop)\b([^{]*)\{', f.body):
                body = blocks(f.body, found.end() - 1)
                test = set(re.findall(r'\b[a-z_]\w*\b', found.group(2)))
                moved = set(re.findall(r'\b(\w+) [+-]= ', body)) & test
                kind = 'a while that counts' if moved else 'another while or loop'
                yield kind, f.where, f'{f.name} {found.group(1)}{found.group(2).rstrip()}'


def point_4(files, each):
    for where, _ in files:
        for f in each[where]:
            if re.search(r'256 \*|% 256|/ 256|\* 256|\* 65536|/ 65536|\* 4294967296', f.body):
                yield 'a number put together or taken apart', f.where, f.name
            if not f.params.strip() and re.fullmatch(r'\{\s*(?:[\w:]+\s*\{[\s\w:,()]*\}|\[?\w+(?:;\s*\w+\])?)\s*\}', f.body):
                yield 'a constant or a default by a function', f.where, f.name
            for _ in re.findall(r'\b(?:write|say)\(\s*rt,\s*b"', f.body):
                yield 'words printed by hand', f.where, f.name
            arms = re.findall(r'=>\s*(?:\d+|\w+ as \w+)\s*[,}]', f.body)
            if len(arms) >= 2 and f.body.count('match') == 1 and len(arms) == f.body.count('=>'):
                yield 'a conversion by a match', f.where, f.name


def point_5(files, each):
    facts, groups = collections.defaultdict(set), collections.defaultdict(set)
    for where, _ in files:
        for f in each[where]:
            if re.search(r'\bcard: &\[u8\],\s*l: Layout\b', f.params):
                groups['card, l'].add((f.where, f.name))
            if re.search(r'\bbeliefs: &(?:mut )?Set,\s*goals: &(?:mut )?Set\b', f.params):
                groups['beliefs, goals (m, plan)'].add((f.where, f.name))
            elif re.search(r'\bm: Standing,\s*plan: &', f.params):
                groups['m, plan'].add((f.where, f.name))
            for fact in re.findall(r'requires\s*(?:\w+\s*)?\{(.*?)\}(?= requires| ensures|$)', f.clauses, re.S):
                for part in re.split(r'\s×\s', ' '.join(fact.split())):
                    facts[part.strip(' ()')].add((f.where, f.name))
    for name, members in groups.items():
        for place, function in members:
            yield f'parameters that travel together: {name}', place, function
    for fact, members in facts.items():
        if len(members) >= 3:
            for place, function in members:
                yield 'a fact in three contracts or more', place, f'{function}: {fact[:80]}'


def point_6(files, each):
    for where, _ in files:
        for f in each[where]:
            buffer = re.search(r'\b(\w+): &(?:mut )?(?:Plan|Marks|\[u(?:8|16|32)(?:; \w+)?\])', f.params)
            if buffer and re.search(r'\b(n|k|len|count|top|m|size|hlen|blen)\s*:\s*usize', f.params):
                yield 'a buffer with a length beside it', f.where, f.name


def point_7(files, each):
    for where, _ in files:
        for f in each[where]:
            for found in re.finditer(r'\bmatch ([^{]+)\{', f.body):
                arms = re.findall(r'=>\s*(\w+(?:::\w+)*)?(\()?', blocks(f.body, found.end() - 1))
                calls = [name for name, call in arms if call and name and name.split('::')[-1][0].islower()]
                if len(calls) >= 2 and len(calls) >= len(arms) - 1 and len(set(calls)) > 1:
                    yield 'a switch on which step to run', f.where, f'{f.name}: match {found.group(1).strip()}'


def point_8(top):
    for path in sorted(top.glob('crates/*/proofs/**/*.antt')):
        text = path.read_text()
        own = path.name in ('Answers.antt', 'Invariants.antt', 'Proof.antt')
        kind = 'answers' if path.name == 'Answers.antt' else 'proof files of functions, other' if own else 'lemmas'
        for name in re.findall(r'^(?:abbrev |unfoldable )?(?:pub )?([^\s:]+) :', text, re.M):
            yield kind, str(path.relative_to(top)), name


def main():
    ask = argparse.ArgumentParser()
    ask.add_argument('folder', nargs='?', default=pathlib.Path(__file__).resolve().parent.parent, type=pathlib.Path)
    ask.add_argument('--list', action='store_true')
    ask.add_argument('--point', type=int)
    said = ask.parse_args()
    files = [(str(p.relative_to(said.folder / 'crates')), code(p.read_text())) for p in sorted((said.folder / 'crates').glob('*/src/*.rt'))]
    each = {where: list(functions(where, text)) for where, text in files}
    points = [point_1, point_2, point_3, point_4, point_5, point_6, point_7]
    for number in range(1, 9):
        if said.point not in (None, number):
            continue
        places = list(point_8(said.folder) if number == 8 else points[number - 1](files, each))
        print(f'{number}  {len(places)}')
        for kind, many in sorted(collections.Counter(kind for kind, _, _ in places).items()):
            print(f'     {many:5}  {kind}')
        if said.list:
            for kind, place, what in sorted(places):
                print(f'        {place}  {what}  ({kind})')


main()
