#!/usr/bin/env python3
"""trees.py LINES DOT JSON TOKENS: whether the three forms of a tree have the same nodes with the same places below the same nodes, and whether each name,
number, character and string of the source's own lines is a token at its place, with its text."""
import json
import re
import sys


def of_lines(text):
    """The nodes of the indented lines: depth, kind and text, place. The kinds begin after the widest place, from column 10 on."""
    parts = [re.match(r'(\S*)( +)(.*)', line).groups() for line in text.splitlines()]
    kinds = max(10, *(len(place) + 1 for place, _, _ in parts))
    for place, blanks, what in parts:
        yield (len(place) + len(blanks) - kinds) // 2, what, place


def of_dot(text):
    """The same nodes of a graph."""
    depths = {'0': -1}
    for line in text.splitlines():
        found = re.match(r'  n(\d+) \[label="((?:[^"\\]|\\.)*)"\]; n(\d+) -> n(\d+);', line)
        if found:
            number, label, parent, child = found.groups()
            what, _, place = re.sub(r'\\(["\\])', r'\1', label).rpartition('\\n') if '\\n' in label else (re.sub(r'\\(["\\])', r'\1', label), '', '')
            depths[number] = depths[parent] + 1
            if number != child or what == '':
                raise ValueError(line)
            yield depths[number], what, place


def of_json(node, depth=-1):
    """The same nodes of an object."""
    if depth >= 0:
        place = f'{node["line"]}:{node["column"]}' if 'line' in node else ''
        place = f'{node["file"]}:{place}' if 'file' in node else place
        yield depth, ' '.join([node['kind'], *([node['text']] if 'text' in node else [])]), place
    for part in node['parts']:
        yield from of_json(part, depth + 1)


def are_alike(one, other):
    """Whether two nodes are the same; a line may have only the front of a text."""
    if one[1].endswith('\u2026'):
        other = other[0], other[1][:len(one[1]) - 1] + '\u2026', other[2]
    return one == other


def tokens_of(text):
    found = {}
    for line in text.splitlines():
        fields = re.match(r' *(\d+:\d+) +\S+ +(.*)', line)
        if fields:
            found[fields.group(1)] = fields.group(2)
    return found


def main():
    lines, dot, shown, tokens = (open(path, encoding='utf-8', errors='replace').read() for path in sys.argv[1:])
    nodes = list(of_lines(lines))
    complaints = [f'{one} in lines, {other} in JSON' for one, other in zip(nodes, of_json(json.loads(shown))) if not are_alike(one, other)]
    complaints += [f'{one} in lines, {other} in the graph' for one, other in zip(nodes, of_dot(dot)) if not are_alike(one, other)]
    counts = len(nodes), len(list(of_json(json.loads(shown)))), len(list(of_dot(dot)))
    if len(set(counts)) > 1 or not nodes:
        complaints.append(f'numbers of nodes: {counts}')
    of_tokens = tokens_of(tokens)
    for _, what, place in nodes:
        kind, _, text = what.partition(' ')
        if text and place.count(':') == 1 and kind != 'GET' and not of_tokens.get(place, '').startswith(text[:40]):
            complaints.append(f'{what} at {place}: {of_tokens.get(place)}')
    for complaint in complaints[:5]:
        print('  ' + complaint, file=sys.stderr)
    sys.exit(bool(complaints))


main()
