#!/usr/bin/env python3
"""Counts the places of docs/DESIGN-PASS.md in the sources, as they stand or at a revision: tools/places.py [REV] [--list]."""

import collections
import pathlib
import re
import subprocess
import sys

ROOT = pathlib.Path(__file__).resolve().parent.parent
NOTHING = re.compile(r'^(No[A-Z]\w*|Nothing|None|Not|Other|Unclear|Barred|Refused|WrongLength|Silent|Empty|OutOfRange|TooSmall)$')
NAME = re.compile(r'[A-Za-z_]\w*')


def files(rev, ending):
    """The files of crates/ with this ending: path and text."""
    if rev is None:
        return [(str(p.relative_to(ROOT)), p.read_text()) for p in sorted(ROOT.glob('crates/*/*/**/*' + ending)) if '/out/' not in str(p)]
    names = subprocess.run(['git', 'ls-tree', '-r', '--name-only', rev, 'crates'], cwd=ROOT, stdout=subprocess.PIPE, text=True, check=True)
    paths = [p for p in names.stdout.splitlines() if p.endswith(ending)]
    return [(p, subprocess.run(['git', 'show', f'{rev}:{p}'], cwd=ROOT, stdout=subprocess.PIPE, text=True, check=True).stdout) for p in paths]


def functions(text):
    """Name, parameters, result and body of each function; clauses belong to none of them."""
    for m in re.finditer(r'^( *)(?:pub(?:\(\w+\))? )?(?:extern "C" )?fn (\w+)(?:<[^>]*>)?\(', text, re.M):
        end, depth = m.end(), 1
        while depth:
            depth += {'(': 1, ')': -1}.get(text[end], 0)
            end += 1
        result = re.match(r' -> ([^\n{]+)', text[end:])
        opened = re.compile(r'^' + m.group(1) + r'\{$| \{$', re.M).search(text, end - 1)
        if not opened:
            continue
        closed = re.compile(r'^' + m.group(1) + r'\}$', re.M).search(text, opened.end())
        yield m.group(2), text[m.end():end - 1], (result.group(1).strip() if result else ''), text[opened.end():closed.start() if closed else len(text)]


def parameters(text):
    """Name and type of each parameter."""
    parts, depth, start = [], 0, 0
    for i, c in enumerate(text + ','):
        depth += {'(': 1, '[': 1, '<': 1, ')': -1, ']': -1, '>': -1}.get(c, 0)
        if c == ',' and depth == 0:
            parts.append(text[start:i].strip())
            start = i + 1
    return [tuple(x.strip() for x in p.split(':', 1)) for p in parts if ':' in p]


def shape(body):
    """A body without its names, numbers and strings."""
    body = re.sub(r'//.*', '', body)
    body = re.sub(r'b?"[^"]*"|b?\'[^\']*\'', 'S', body)
    kept = {'let', 'mut', 'if', 'else', 'match', 'return', 'while', 'for', 'in', 'loop', 'break', 'as'}
    body = NAME.sub(lambda m: m.group() if m.group() in kept else 'x', body)
    return re.sub(r'\s+', ' ', re.sub(r'\d+', '0', body)).strip()


def places(sources):
    found = collections.OrderedDict((n, []) for n in (
        '1 enums with a case for nothing or a refusal', '1 flags beside a value', '1 numbers for cases', '2 functions of one shape',
        '3 loops that count by hand', '4 comparisons and tests written out', '5 parameters that travel together', '6 arrays by value or with a length beside',
        '7 matches of seven arms and more'))
    shapes, sets = collections.defaultdict(list), collections.defaultdict(set)
    for path, text in sources:
        for m in re.finditer(r'^(?:pub )?enum (\w+) \{\n(.*?)^\}', text, re.M | re.S):
            cases = re.findall(r'^    (\w+)', m.group(2), re.M)
            none = [c for c in cases if NOTHING.match(c)]
            if none and len(none) < len(cases) and ('(' in m.group(2) or len(cases) == 2):
                found['1 enums with a case for nothing or a refusal'].append(f'{path} {m.group(1)}')
        for m in re.finditer(r'^(?:pub )?struct (\w+)[^\n]*\{\n(.*?)^\}', text, re.M | re.S):
            if re.search(r'^    (?:pub )?\w+: (?!bool)', m.group(2), re.M):
                for flag in re.findall(r'^    (?:pub )?(\w+): bool', m.group(2), re.M):
                    found['1 flags beside a value'].append(f'{path} {m.group(1)}.{flag}')
            if re.search(r'\[.*; ', m.group(2)) and re.search(r'(len|kept|count): (usize|u8)', m.group(2)):
                found['6 arrays by value or with a length beside'].append(f'{path} {m.group(1)}')
        for name, given, result, body in functions(text):
            at = f'{path} {name}'
            params = parameters(given)
            if result in ('u64', 'u32', 'u8') and len(re.findall(r'=> (?:\d+|[A-Z_]{4,}),', body)) > 1:
                found['1 numbers for cases'].append(at)
            if len(body.strip().splitlines()) > 2:
                shapes[shape(body)].append(at)
            for loop in re.findall(r'^ *(?:while |loop \{)', body, re.M):
                found['3 loops that count by hand'].append(at)
            if result == 'bool' and (re.search(r'=> (?:true|false),', body) or re.search(r'return (?:true|false);', body)):
                found['4 comparisons and tests written out'].append(at)
            typed = [f'{n}: {t}' for n, t in params if n != 'rt']
            for i in range(len(typed)):
                for j in range(i + 1, len(typed)):
                    for k in range(j + 1, len(typed)):
                        sets[(typed[i], typed[j], typed[k])].add(at)
            if any(re.match(r'(mut )?\[', t) for _, t in params) or any(n in ('len', 'count', 'at') and t == 'usize' for n, t in params):
                found['6 arrays by value or with a length beside'].append(at)
            for m in re.finditer(r'^( *)[^\n]*match [^\n]*\{\n(.*?)^\1\}', body, re.M | re.S):
                arms = re.findall(r'^' + m.group(1) + r'    [^\s}].*?=>', m.group(2), re.M)
                if len(arms) >= 7:
                    found['7 matches of seven arms and more'].append(at)
    for group in shapes.values():
        if len(group) > 1:
            found['2 functions of one shape'] += group
    together = set()
    for at in sets.values():
        if len(at) > 2:
            together |= at
    found['5 parameters that travel together'] = sorted(together)
    return found


def main():
    rev = next((a for a in sys.argv[1:] if not a.startswith('--')), None)
    found = places(files(rev, '.rt'))
    for name, at in found.items():
        print(f'{len(at):5} {name}')
        if '--list' in sys.argv:
            for place in at:
                print(f'        {place}')
    answers = [(p, t) for p, t in files(rev, '.antt') if p.endswith('/Answers.antt')]
    print(f'{len(answers):5} 8 files of answers')
    print(f'{sum(len(t.splitlines()) for _, t in answers):5} 8 lines in them')


main()
