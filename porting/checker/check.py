#!/usr/bin/env python3
"""check.py CERT [TEXT..]: checks a certificate of least size, and that INTCODE texts have the code that it lists.

It prints the lines that `bcpl check` prints, and ends with the same status: 0 for a certificate that is accepted, 1 for one
that is refused, 3 for wrong arguments. It was written from docs/certificate.md and docs/rules.md and shares no code with `bcpl`,
so a mistake in one of the two programs would show as a difference. It is tested, not proved.
"""
import argparse
import collections
import functools
import pathlib
import re
import sys

# The greatest number, level and small number; the most nodes one within another; the most bytes of a certificate.
MOST, LEVEL, SMALL, DEPTH, BYTES = 2 ** 64 - 1, 32768, 65535, 400, 2 ** 30


class Refusal(Exception):
    """What follows `bcpl: ` on standard error."""


# ---- Trees

MIRRORS = {5: 5, 8: 8, 10: 10, 11: 11, 12: 14, 13: 15, 14: 12, 15: 13, 18: 18, 19: 19, 20: 20, 21: 21}
OPERATORS = {'+': 8, '-': 9, '=': 10, 'NE': 11, '&': 18, 'bar': 19}
PUSH, ANY, FALSE, TRUE = 'push', 'any', 'false', 'true'


class Node:
    """A node, or an assignment, whose form is `:=` and whose parts are the value and the address."""

    def __init__(self, form, n, level, parts):
        self.form, self.n, self.level, self.parts = form, n, level, parts
        self.depth = 1 + max([part.depth for part in parts], default=0)
        self.has_call = form in 'KV' or any(part.has_call for part in parts)
        self.direct = self.direct_operand()
        self.operand = self.direct or ('I' + parts[0].direct if form == '!' and parts[0].direct else None)
        self.cost = {}                  # the least words for each aim, None if there is no derivation
        self.names = []                 # the rules that its line names, the outermost first
        self.shows = {}                 # for each aim that these rules are a derivation for: the outermost rule's instance
        self.is_unused = True           # whether its line and those of all nodes below name no rules

    def direct_operand(self):
        """The direct operand that this node is, such as `P3`, or None."""
        if self.form in 'NPGL':
            return ('' if self.form == 'N' else self.form) + str(self.n)
        if (self.form, self.n) == ('X', OPERATORS['+']):
            cell, number = sorted(self.parts, key=lambda part: part.form == 'N')
            if cell.form in 'PG' and number.form == 'N':
                return cell.form + str((cell.n + number.n) % 65536)
        return None

    def is_zero(self):
        return self.form == 'N' and self.n == 0

    def is_free(self):
        """Whether its two parts may be evaluated in either order."""
        a, b = self.parts
        return bool(a.direct or b.direct or not (a.has_call or b.has_call))


def levels_of_parts(form, n, level):
    """The levels that the parts of a node must have."""
    several = {'X': [level + 1] * 2, 'K': [level + 2 + i for i in range(n + 1)], '?': [level] * 3}
    return several.get(form, [level] * (form in '!M~'))


# ---- The rule table, as in docs/rules.md: the name, the aims, where the rule applies, and its code. In the code `any:a` is the code
# of the part a with the aim any, `m:a` with the node's own aim, `true:a:1` with the aim true and the label 1 as its target. The part
# `e` is the node itself, `r` the part other than a 0 that is dropped, the right one of two. `@1` and `@2` are the rule's own labels, `@t` is the target; `.b` is the operand b, `.s` the level.

RULES = [[column.split() for column in line.split('|')] for line in """
V1  | push        | operand                   | L.e
V2  | push any    | load                      | m:a X1
V3  | push any    | negative                  | m:a X2
V4  | push any    | not                       | m:a X3
V6  | push any    | + b-operand               | m:a A.b
V7  | push any    | + a-operand free          | m:b A.a
V8  | push any    | + a-or-b-zero             | m:r
V8  | push any    | - b-zero                  | m:r
V9  | push any    | - b-number                | m:a A.-b
V10 | push any    | - b-operand               | m:a X2 A.b X2
V11 | push any    | - a-operand free          | m:b X2 A.a
V12 | any         | operator                  | any:a push:b X.op
V13 | any         | operator mirror free      | any:b push:a X.mirror
V14 | any         | - free                    | any:b push:a X9 X2
V15 | any         | operator mirror           | any:a SP.s any:b LIP.s X.mirror
V16 | any         | operator free             | any:b SP.s any:a LIP.s X.op
V17 | any         | operator                  | any:a SP.s any:b SP.s+1 LIP.s LIP.s+1 X.op
V18 | any         | +                         | any:a SP.s any:b AIP.s
V19 | any         | -                         | any:a SP.s any:b X2 AIP.s
V20 | any         | condition                 | false:a:1 any:b J@2 @1 any:c @2
V21 | any         | condition                 | true:a:1 any:c J@2 @1 any:b @2
V22 | any         | call                      | call
V22 | any         | valof                     | ? @1
V0  | any         | any-node                  | push:e
J1  | false       | not                       | true:a:t
J1  | true        | not                       | false:a:t
J2  | false       | &                         | false:a:t false:b:t
J3  | true        | &                         | false:a:1 true:b:t @1
J4  | true        | bar                       | true:a:t true:b:t
J5  | false       | bar                       | true:a:1 false:b:t @1
J6  | false       | value                     | any:e F@t
J6  | true        | value                     | any:e T@t
J7  | false       | number zero               | J@t
J7  | false       | number not-zero           |
J7  | true        | number zero               |
J7  | true        | number not-zero           | J@t
J8  | false       | = a-or-b-zero 2           | any:r T@t
J8  | true        | = a-or-b-zero 2           | any:r F@t
J9  | false       | NE a-or-b-zero 2          | any:r F@t
J9  | true        | NE a-or-b-zero 2          | any:r T@t
A1  | any         | assignment b-operand      | any:a S.b
A2  | any         | assignment b-other free   | any:b SP.s any:a SIP.s
A3  | any         | assignment b-other        | any:a SP.s any:b SP.s+1 LIP.s SIP.s+1
""".strip().split('\n')]

FORMS = {'load': '!', 'negative': 'M', 'not': '~', 'condition': '?', 'call': 'K', 'valof': 'V', 'number': 'N', 'operator': 'X', 'assignment': ':='}
# Conditions on a node's form, and those on its parts.
FORM_WHERE = {
    'mirror': lambda form, n: n in MIRRORS,
    'value': lambda form, n: form not in ('~', ':=') and not (form == 'X' and n in (18, 19)),
    'any-node': lambda form, n: form != ':=',
}
FORM_WHERE.update((name, lambda form, n, wanted=wanted: form == wanted) for name, wanted in FORMS.items())
FORM_WHERE.update((name, lambda form, n, wanted=wanted: form == 'X' and n == wanted) for name, wanted in OPERATORS.items())
WHERE = {
    'operand': lambda node: node.operand,
    'a-operand': lambda node: node.parts[0].operand,
    'b-operand': lambda node: node.parts[1].operand,
    'b-other': lambda node: not node.parts[1].operand,
    'b-number': lambda node: node.parts[1].form == 'N',
    'a-or-b-zero': lambda node: node.parts[0].is_zero() or node.parts[1].is_zero(),
    'b-zero': lambda node: node.parts[1].is_zero(),
    'zero': Node.is_zero,
    'not-zero': lambda node: not node.is_zero(),
    'free': Node.is_free,
}


class Instance:
    """A rule where it applies: the parts that it derives, each with its aim, and its code, where a pair is a part and its target."""

    def __init__(self, node, name, aim, code):
        self.node, self.name, self.derives, self.code, self.below = node, name, [], [], {}
        self.labels = max([int(token[-1]) for token in code if token[-2:] in ('@1', '@2')], default=0)
        for token in code:
            if token == 'call':
                for i, part in enumerate(node.parts):
                    self.derive(part, ANY, None)
                    self.code.append('SP%d' % (node.level + 2 + i) if i < node.n else 'K%d' % node.level)
            elif ':' in token:
                aim_of, part, target = (token + ':').split(':')[:3]
                self.derive(self.part(part), aim if aim_of == 'm' else aim_of, target)
            else:
                self.code.append(self.instruction(token))

    def part(self, letter):
        if letter == 'r':
            return self.node.parts[0 if self.node.parts[1].is_zero() else 1]
        return self.node if letter == 'e' else self.node.parts['abc'.index(letter)]

    def derive(self, part, aim, target):
        self.code.append((len(self.derives), target))
        self.derives.append((part, aim))

    def instruction(self, token):
        """An instruction of the code, with its operand."""
        letters, _, what = token.partition('.')
        if what in ('e', 'a', 'b'):
            return letters + self.part(what).operand
        level, n = self.node.level, self.node.n
        numbers = {'': '', 's': level, 's+1': level + 1, 'op': n, 'mirror': MIRRORS.get(n)}
        return letters + str(-self.node.parts[1].n % 65536 if what == '-b' else numbers[what])

    def words(self):
        """Its words with the least words of each part; None if a part has no derivation."""
        costs = [part.cost[aim] for part, aim in self.derives]
        return None if None in costs else sum(costs) + code_words(item for item in self.code if isinstance(item, str))

    def is_shown(self):
        """Whether the parts name rules for the aims that are needed, and no rules if they aren't derived."""
        derived = [part for part, _ in self.derives]
        others = [] if self.node in derived else [part for part in self.node.parts if part not in derived]
        return all(aim in part.shows for part, aim in self.derives) and all(part.is_unused for part in others)


def code_words(code):
    """The words of instructions and labels."""
    return sum(0 if item[0] in '@?0123456789' else 2 if '@' in item or 'L' in item[1:] or int(item.lstrip('LSAJTFKXIPG')) > 511 else 1
               for item in code)


@functools.lru_cache(maxsize=None)
def rules_for(form, n, aim, table):
    """The rules of a table for an aim at nodes of this form: name, code and the conditions on the parts."""
    return [(name, code, [word for word in where if word in WHERE]) for (name,), aims, where, code in RULES
            if aim in aims and (table == '2' or '2' not in where) and all(FORM_WHERE[word](form, n) for word in where if word in FORM_WHERE)]


def instances(node, aim, table):
    """The instances of the rules that apply to a node for an aim."""
    rules = rules_for(node.form, node.n if node.form == 'X' else None, aim, table)
    return [Instance(node, name, aim, code) for name, code, where in rules if all(WHERE[word](node) for word in where)]


def set_least_words(node, table):
    for aim in (PUSH, ANY, FALSE, TRUE):
        costs = [instance.words() for instance in instances(node, aim, table)]
        node.cost[aim] = min([cost for cost in costs if cost is not None], default=None)


def set_shown(node, table):
    """Sets what the rules that a node names are derivations for, from the innermost rule on."""
    for name in reversed(node.names):
        shown = {}
        for aim in node.cost:
            for instance in instances(node, aim, table):
                if instance.name == name and instance.words() == node.cost[aim] and instance.is_shown():
                    instance.below, shown[aim] = node.shows, instance
        node.shows = shown
    node.is_unused = not node.names and all(part.is_unused for part in node.parts)


class Writer:
    """Writes the code of a derivation. Labels are numbered from the first on."""

    def __init__(self, first):
        self.code, self.next_label = [], first

    def write(self, instance, target):
        labels = {'t': target, '': None, '1': self.next_label, '2': self.next_label + 1, None: None}
        self.next_label += instance.labels
        for item in instance.code:
            if isinstance(item, tuple):
                part, aim = instance.derives[item[0]]
                self.write((instance.below if part is instance.node else part.shows)[aim], labels[item[1]])
            elif '@' in item:
                letters, label = item.split('@')
                self.code.append('%s%d' % (letters + 'L' if letters else '', labels[label]))
            else:
                self.code.append(item)


# ---- The certificate, line by line

Entry = collections.namedtuple('Entry', 'segment item target first words code')
N = '(0|[1-9][0-9]{0,19})'
NAMES = '(-|[VJA]%s(?:[.][VJA]%s)*)' % (N, N)
NODE = re.compile('%s (?:([NPGLVK])%s|(X)([5-9]|1[0-9]|2[01])|([!M~?])) %s (?:%s|-) %s %s ' % (N, N, N, N, N, N) + NAMES)
ENTRY = re.compile('E %s %s %s %s %s' % (N, N, N, N, N))
ROOT = re.compile('R (?:([VFT])|(A[123]) %s)' % N)
PIECES = [(re.compile(form.replace('N', N)), limits) for form, limits in (
    ('[?]N', [MOST]), ('N', [SMALL]), ('DL?N', [SMALL]), ('CN', [255]), ('[LSAJTFKX]I?[PGL]?N', [SMALL]), ('GNLN', [511, SMALL]))]
AT_ONE_NODE = re.compile('(J6[.])?(V0[.])?V(?!0$)[0-9]+|J(?!6$)[0-9]+')


def numbers(fields, limits):
    """The numbers of fields, or None if one is over its limit."""
    values = list(map(int, fields))
    return None if any(value > limit for value, limit in zip(values, limits)) else values


def is_piece(field):
    return any(form.fullmatch(field) and numbers(form.fullmatch(field).groups(), limits) for form, limits in PIECES)


class Checker:
    """Checks lines in turn; `entries` are those that are accepted."""

    def __init__(self):
        self.table, self.entries, self.line, self.read = None, [], 0, self.read_header
        self.entry, self.stack, self.nodes, self.root = None, [], 0, None

    def need(self, holds):
        if not holds:
            raise Refusal('check 2 Line %d' % self.line)

    def refuse(self, fault, *more):
        raise Refusal(' '.join(map(str, ('check', fault, len(self.entries)) + more)))

    def read_end(self, _):
        self.need(False)

    def read_header(self, line):
        if line not in ('BCPLCERT 1', 'BCPLCERT 2'):
            raise Refusal('check 1 Header')
        self.table, self.read = line[-1], self.read_entry

    def read_entry(self, line):
        if line == 'Z %d' % len(self.entries):
            self.read = self.read_end
            return
        found = ENTRY.fullmatch(line)
        values = found and numbers(found.groups(), (MOST, MOST, SMALL, SMALL, MOST))
        self.need(values)
        self.entry, self.stack, self.nodes, self.read = Entry(*values, []), [], 0, self.read_node

    def read_node(self, line):
        if line.startswith('R '):
            self.read_root(line)
            return
        node, stated = self.node_of(line)
        if node.depth > DEPTH:
            raise Refusal('check 8 TooDeep %d' % self.line)
        set_least_words(node, self.table)
        if node.cost != stated:
            self.refuse('4 WrongCost', self.nodes)
        set_shown(node, self.table)
        if node.names and not (node.shows and AT_ONE_NODE.fullmatch('.'.join(node.names))):
            self.refuse('5 WrongRule', self.nodes)
        self.stack.append(node)
        self.nodes += 1

    def node_of(self, line):
        """The node of a line, its parts taken off the stack, and the words that the line states."""
        found = NODE.fullmatch(line)
        self.need(found)
        level, letter, n, operator, x, single = found.groups()[:6]
        form, costs, names = letter or operator or single, found.groups()[6:10], found[11]
        values = numbers([level, n or x or 0] + [cost or 0 for cost in costs], (LEVEL, SMALL) + (MOST,) * 4)
        self.need(values and numbers(re.findall('[0-9]+', names), [SMALL] * len(names)) is not None)
        levels = levels_of_parts(form, values[1], values[0])
        parts = self.stack[len(self.stack) - len(levels):] if len(levels) <= len(self.stack) else []
        self.need([part.level for part in parts] == levels)
        del self.stack[len(self.stack) - len(levels):]
        node = Node(form, values[1], values[0], parts)
        node.names = [] if names == '-' else names.split('.')
        return node, {aim: None if costs[k] is None else values[2 + k] for k, aim in enumerate((ANY, PUSH, FALSE, TRUE))}

    def read_root(self, line):
        found = ROOT.fullmatch(line)
        self.need(found and len(self.stack) == (1 if found[1] else 2))
        if found[1]:
            tree, aim = self.stack[0], {'V': ANY, 'F': FALSE, 'T': TRUE}[found[1]]
        else:
            tree, aim = self.assignment(found[2], int(found[3])), ANY
        if aim not in tree.shows:
            self.refuse('5 WrongRule', self.nodes)
        self.root, self.read = tree.shows[aim], self.read_code

    def assignment(self, name, s):
        """The tree of an assignment at level s by this rule."""
        level = s if self.stack[1].operand else s + 1
        self.need(s <= LEVEL and all(part.level == level for part in self.stack))
        tree = Node(':=', 0, s, self.stack)
        set_least_words(tree, self.table)
        tree.names = [name]
        set_shown(tree, self.table)
        return tree

    def read_code(self, line):
        pieces = line.split(' ')
        self.need(pieces.pop(0) == 'C' and all(is_piece(field) for field in pieces))
        writer, entry = Writer(self.entry.first), self.entry
        writer.write(self.root, entry.target)
        if writer.code != ['?' if field[0] == '?' else field for field in pieces] or writer.next_label > SMALL + 1:
            self.refuse('6 WrongCode')
        if code_words(pieces) != entry.words:
            self.refuse('7 WrongWords')
        entry.code.extend(int(field[1:]) if field[0] == '?' else field for field in pieces)
        self.entries.append(entry)
        self.read = self.read_entry

    def finish(self, rest):
        """At the end of the input, where rest is a line without LF."""
        if self.read == self.read_header:
            raise Refusal('check 1 Header')
        if rest or self.read != self.read_end:
            raise Refusal('check 3 Truncated')


def check_certificate(content):
    """The entries of a certificate that is accepted."""
    checker = Checker()
    lines = content[:BYTES].decode('latin-1').split('\n')
    for checker.line, line in enumerate(lines[:-1], 1):
        checker.read(line)
    if len(content) > BYTES:
        raise Refusal('check 9 Read')
    checker.finish(lines[-1])
    return checker.entries


# ---- Texts

DIGITS = '0123456789'
BLANK = re.compile('(?:[ \t\r\n$]|/[^\n]*)*')


class Text:
    """Reads the segments of an INTCODE text, as docs/formats.md has it."""

    def __init__(self, content):
        self.content, self.at = content.decode('latin-1'), 0

    def take(self, letters):
        """The next character if it is one of these, else nothing."""
        if self.at == len(self.content):
            raise Refusal('text 4 Unended')
        letter = self.content[self.at]
        self.at += letter in letters
        return letter if letter in letters else ''

    def number(self, limit, signed=False):
        first, value = self.at, 0
        negative = signed and self.take('-')
        digit = self.take(DIGITS)
        if not digit:
            raise Refusal('text 2 BadNumber %d' % self.at)
        while digit:
            value = value * 10 + int(digit)
            if value > (32768 if negative else limit):
                raise Refusal('text 2 BadNumber %d' % first)
            digit = self.at < len(self.content) and self.take(DIGITS)
        return -value % 65536 if negative else value

    def item(self):
        letter = self.take('ZCDGLSAJTFKX' + DIGITS)
        if letter == '':
            raise Refusal('text 1 BadCharacter %d' % self.at)
        if letter in DIGITS:
            self.at -= 1
            return str(self.number(SMALL))
        if letter in 'ZC':
            return letter + ('' if letter == 'Z' else str(self.number(255)))
        if letter == 'G':
            glob = self.number(511)
            if not self.take('L'):
                raise Refusal('text 3 MissingLabel %d' % self.at)
            return 'G%dL%d' % (glob, self.number(SMALL))
        letters = letter + ('' if letter == 'D' else self.take('I')) + self.take('L' if letter == 'D' else 'LPG')
        return letters + str(self.number(SMALL, not letters[1:].endswith('L')))

    def segments(self):
        """The items of each segment."""
        out, segment = [], []
        while BLANK.match(self.content, self.at).end() < len(self.content):
            self.at = BLANK.match(self.content, self.at).end()
            segment.append(self.item())
            if segment[-1] == 'Z':
                out.append(segment[:-1])
                segment = []
        if segment:
            raise Refusal('text 4 Unended')
        return out


def compare(entries, segments):
    """Refuses the first entry that isn't the code of the segments."""
    before = (0, 0)
    for k, entry in enumerate(entries):
        if (entry.segment, entry.item) < before:
            raise Refusal('against 3 Order %d' % k)
        before = (entry.segment, entry.item)
        size = sum(piece if isinstance(piece, int) else 1 for piece in entry.code)
        if entry.segment >= len(segments) or entry.item + size > len(segments[entry.segment]):
            raise Refusal('against 2 OutsideText %d' % k)
        at = entry.item
        for there in entry.code:
            if isinstance(there, str) and segments[entry.segment][at] != there:
                raise Refusal('against 1 CodeDiffers %d' % k)
            at += there if isinstance(there, int) else 1


# ---- The command line

def content_of(path):
    try:
        return pathlib.Path(path).read_bytes()
    except OSError as error:
        raise Refusal('file ' + path) from error


def check(certificate, texts):
    """The line for a certificate that is accepted."""
    entries = check_certificate(content_of(certificate))
    contents = [content_of(path) for path in texts]
    if texts:
        compare(entries, [segment for text in contents for segment in Text(text).segments()])
    return 'ok %d %d' % (len(entries), sum(entry.words for entry in entries))


def main():
    parser = argparse.ArgumentParser(description=__doc__, formatter_class=argparse.RawDescriptionHelpFormatter)
    parser.error = lambda message: parser.exit(3, 'check.py: %s\n%s' % (message, parser.format_usage()))
    parser.add_argument('certificate', metavar='CERT')
    parser.add_argument('texts', metavar='TEXT', nargs='*')
    options = parser.parse_args()
    sys.setrecursionlimit(20000)
    try:
        print(check(options.certificate, options.texts))
    except Refusal as refusal:
        sys.exit('bcpl: %s' % refusal)


if __name__ == '__main__':
    main()
