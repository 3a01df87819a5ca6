"""Random sections for the compiler in BCPL. Most of them are accepted; they aren't meant to be run."""
import random

OPERATORS = ["*", "/", "REM", "+", "-", "=", "~=", "<", ">=", ">", "<=", "<<", ">>", "&", "|", "NEQV", "EQV"]
SPELLINGS = {"=": ["=", "EQ"], "~=": ["~=", "NE"], "<": ["<", "LS"], ">=": [">=", "GE"], ">": [">", "GR"], "<=": ["<=", "LE"],
             "<<": ["<<", "LSHIFT"], ">>": [">>", "RSHIFT"], "&": ["&", "/\\", "LOGAND"], "|": ["|", "\\/", "LOGOR"]}
EDGES = [510, 511, 512, 513, 65535, 65534, 65025, 65024, 32768, 32767]
FRESH = {"val": False, "loop": False, "switch": False, "ret": False, "labels": (), "depth": 0}


class Section:
    """A generator of one section. What names mean is a dictionary: v variable, g global, s static, m manifest, r routine, l label."""

    def __init__(self, seed, first_global=20, globals_=40):
        self.random = random.Random(seed)
        self.count, self.seed = 0, seed
        self.globals = list(range(first_global, first_global + globals_))

    def pick(self, items):
        return self.random.choice(items)

    def chance(self, p):
        return self.random.random() < p

    def some(self, most, least=0):
        return range(self.random.randrange(least, most))

    def fresh(self, letter):
        self.count += 1
        return self.pick(["", "x.", "Long.Name"]) + letter + str(self.count)

    def spelled(self, operator):
        return self.pick(SPELLINGS.get(operator, [operator]))

    # ---- Expressions

    def number(self):
        value = self.random.randrange(65536)
        return self.pick(["0", "0", str(value % 10), str(value % 10), str(self.pick(EDGES)), f"#X{value:X}", f"#{value:o}", str(value),
                          self.pick(["'a'", "'*N'", "'**'", "'*''", "'*\"'", "'*s'"])])

    def constant(self, names, depth=2):
        manifests = [name for name, kind in names.items() if kind == "m"]
        if depth == 0 or self.chance(0.5):
            if manifests and self.chance(0.5):
                return self.pick(manifests)
            return self.pick([self.number(), "TRUE", "FALSE"])
        if self.chance(0.4):
            return f"({self.pick(['-', 'NOT '])}{self.constant(names, depth - 1)})"
        operator = self.spelled(self.pick([o for o in OPERATORS if o not in ("/", "REM")]))
        return f"({self.constant(names, depth - 1)} {operator} {self.constant(names, depth - 1)})"

    def string(self):
        return '"' + "".join(self.pick(["a", "b", "*N", "**", '*"', " ", "%"]) for _ in self.some(7)) + '"'

    def atom(self, names):
        known = [name for name, kind in names.items() if kind in "vgsmr"]
        if known and self.chance(0.65):
            return self.pick(known)
        return self.string() if self.chance(0.1) else self.pick([self.number()] * 8 + ["TRUE", "FALSE"])

    def named(self, names, kinds, other):
        return self.pick([name for name, kind in names.items() if kind in kinds] or [other])

    def expression(self, names, place, depth):
        if depth <= 0 or self.chance(0.1):
            return self.atom(names)

        def part(less=1):
            return self.expression(names, place, depth - less)
        cell = self.named(names, "vgs", "")
        forms = [lambda: f"(!{part()})", lambda: f"(-{part()})", lambda: f"(NOT {part()})", lambda: f"({part()}!{part()})", lambda: f"({part()}!{part()})",
                 lambda: f"({part()} -> {part()}, {part()})", lambda: f"({part()} -> {part()}, {part()})",
                 lambda: f"{self.named(names, 'rgv', '(1)')}({', '.join(part() for _ in self.some(4))})", lambda: f"({part()})({part(2)})",
                 lambda: f"(TABLE {', '.join(self.constant(names) for _ in self.some(4, 1))})",
                 lambda: f"({part()} - {self.number()})", lambda: f"({part()} + {self.pick([self.number(), self.atom(names)])})",
                 lambda: f"({part()} {self.pick(['=', '~=', '+', '-', 'NE'])} 0)", lambda: f"(0 {self.pick(['=', '~=', '+', '-'])} {part()})",
                 lambda: self.chain(names)]
        if cell:
            forms.append(lambda: self.pick([f"(@{cell})", f"(@({cell}))!{self.number()}"]))
        if place["depth"] < 3:
            forms.append(lambda: f"(VALOF {self.body(names, self.inner(place, val=True, loop=False, switch=False, ret=False), depth)})")
        forms += [lambda: f"({part()} {self.spelled(self.pick(OPERATORS))} {part()})"] * 5
        return self.pick(forms)()

    def chain(self, names):
        """Operators without parentheses."""
        operators = [self.pick(["", "", "-", "NOT ", "!"]) + self.atom(names) + " " + self.spelled(self.pick(["+", "-", "*", "&", "|", "NEQV", "<<"]))
                     for _ in self.some(4, 1)]
        return f"({' '.join(operators)} {self.atom(names)})"

    # ---- Commands

    @staticmethod
    def inner(place, **changes):
        return {**place, "depth": place["depth"] + 1, **changes}

    def left(self, names, place, depth):
        cell = self.named(names, "vgs", "")
        part = self.expression(names, place, depth - 1)
        forms = [f"!{part}", f"{part}!{self.expression(names, place, depth - 1)}"]
        return self.pick(forms + ([cell, cell, cell, f"(@{cell})!{self.number()}"] if cell else []))

    def separator(self):
        return self.pick(["; ", ";\n", "\n", "\n", "\n// comment\n", " /* a\nb */ ;"])

    def block(self, names, place, depth):
        names, tag = dict(names), self.pick(["", "", "A", "B1", "x.y"])
        parts = [self.declaration(names, place, depth) for _ in range(self.pick([0, 0, 1, 1, 2]))]
        labels = [self.fresh("L") if self.chance(0.15) else None for _ in self.some(4, 1)]
        own = tuple(label for label in labels if label)
        names.update((label, "l") for label in own)
        place = {**place, "labels": place["labels"] + own}
        parts += [(label + ": " if label else "") + self.command(names, place, depth - 1) for label in labels]
        return f"$({tag} " + "".join(part + self.separator() for part in parts) + self.pick(["$) ", f"$){tag} "])

    def body(self, names, place, depth):
        return self.block(names, place, depth) if self.chance(0.6) else self.command(names, place, depth - 1)

    def command(self, names, place, depth):
        if depth <= 0 or self.chance(0.25):
            count = 2 if self.chance(0.15) else 1
            sides = [self.left(names, place, min(depth, 2)) for _ in range(count)], [self.expression(names, place, min(depth + 1, 3)) for _ in range(count)]
            return f"{','.join(sides[0])} := {', '.join(sides[1])}"

        def value():
            return self.expression(names, place, depth - 1)
        looped = self.inner(place, loop=True)
        forms = [lambda: f"{self.named(names, 'rgv', '(2)')}({', '.join(value() for _ in self.some(3))})",
                 lambda: f"{self.pick(['IF', 'UNLESS'])} {value()}{self.pick([' DO ', ' THEN ', chr(10) + ' DO '])}{self.body(names, place, depth - 1)}",
                 lambda: f"TEST {value()} THEN {self.body(names, place, depth - 1)}{self.pick([' ELSE ', ' OR ', chr(10) + ' ELSE '])}"
                         f"{self.body(names, place, depth - 1)}",
                 lambda: f"{self.pick(['WHILE', 'UNTIL'])} {value()} DO {self.body(names, looped, depth - 1)}",
                 lambda: self.block(names, looped, depth - 1) + self.pick(["REPEAT", f"REPEATWHILE {value()}", f"\nREPEATUNTIL {value()}"]),
                 lambda: self.counted(names, place, depth), lambda: self.switch(names, place, depth), lambda: self.jump(names, place, value),
                 lambda: self.block(names, place, depth - 1)]
        return self.pick(forms)()

    def counted(self, names, place, depth):
        variable, bounds = self.fresh("i"), [self.expression(names, place, depth - 1) for _ in "ab"]
        step = self.pick(["", " BY " + self.constant(names), " BY -1", " BY 2"])
        body = self.body({**names, variable: "v"}, self.inner(place, loop=True), depth - 1)
        return f"FOR {variable} = {bounds[0]} TO {bounds[1]}{step} DO {body}"

    def switch(self, names, place, depth):
        parts, inside = [], self.inner(place, switch=True)
        for number in {self.random.randrange(60000) for _ in self.some(5, 1)}:
            rest = self.pick(["", f"CASE {number + 60000 if number < 5000 else -number}: ", self.command(names, inside, depth - 2) + "; ENDCASE"])
            parts.append(f"CASE {number}: {rest}")
        if self.chance(0.5):
            parts.insert(self.random.randrange(len(parts) + 1), "DEFAULT: " + self.pick(["", "ENDCASE"]))
        items = "".join(part + self.pick(["; ", "\n"]) for part in parts)
        return f"SWITCHON {self.expression(names, place, depth - 1)} INTO $( {items}$)"

    def jump(self, names, place, value):
        jumps = ["FINISH"] + ["BREAK", "LOOP"] * place["loop"] + ["ENDCASE"] * place["switch"] + ["RETURN"] * place["ret"]
        labels = [label for label in place["labels"] if names.get(label) == "l"]
        if place["val"]:
            jumps += ["RESULTIS " + value()] * 3
        elif labels:
            jumps += ["GOTO " + self.pick(labels)] * 3
        return self.pick(jumps)

    # ---- Declarations

    def routine(self, names, place, depth, name):
        parameters = [self.fresh("p") for _ in self.some(4)]
        inside = {other: kind for other, kind in names.items() if kind in "gsmr"}
        inside.update((parameter, "v") for parameter in parameters)
        head, place = f"{name}({', '.join(parameters)})", {**FRESH, "depth": place["depth"] + 1}
        if self.chance(0.5):
            return f"{head} = {self.expression(inside, place, depth)}"
        return f"{head} BE {self.body(inside, {**place, 'ret': True}, depth)}"

    def entries(self, names, word, letter):
        declared, old = [self.fresh(letter) for _ in self.some(3, 1)], dict(names)
        names.update((name, letter) for name in declared)
        return f"{word} $( " + "; ".join(f"{name} = {self.constant(old)}" for name in declared) + " $)"

    def declaration(self, names, place, depth, outside=False):
        kind = self.random.random()
        if kind < 0.2:
            return self.entries(names, *self.pick([("MANIFEST", "m"), ("STATIC", "s")]))
        if kind < 0.25 and self.globals:
            name = self.fresh("g")
            names[name] = "g"
            return f"GLOBAL $( {name} : {self.globals.pop()} $)"
        if not outside and kind < 0.8:
            return self.variables(names, place, depth)
        if place["depth"] > 2 and not outside:
            return f"MANIFEST $( {self.fresh('unused')} = 1 $)"
        declared = []
        for _ in range(self.pick([1, 1, 2])):
            known = [name for name, kind in names.items() if kind == "g"]
            name = known.pop() if known and self.chance(0.3) else self.fresh("f")
            if name not in declared:
                declared.append(name)
        names.update((name, "r") for name in declared if names.get(name) != "g")
        routines = [self.routine(names, place, depth + outside, name) for name in declared]
        for name in declared:
            if names.get(name) == "g":
                names[name] = "G"           # it is set once
        return "LET " + "\nAND ".join(routines)

    def variables(self, names, place, depth):
        definitions = []
        for _ in range(self.pick([1, 1, 2])):
            if self.chance(0.25):
                definitions.append(([self.fresh("w")], f"VEC {self.pick([0, 3, 10, 500, 520])}"))
            else:
                definitions.append(([self.fresh("v") for _ in range(self.pick([1, 1, 2]))], None))
        names.update((name, "v") for declared, _ in definitions for name in declared)
        return "LET " + " AND ".join(
            f"{', '.join(declared)} = " + (size or ", ".join(self.expression(names, place, min(depth, 2)) for _ in declared)) for declared, size in definitions)

    def text(self):
        """The section."""
        names, big = {}, self.seed % 4 == 0
        count = self.random.randrange(5, 14) if big else self.random.randrange(2, 7)
        return "\n".join(self.declaration(names, FRESH, 3 if big else 2, True) for _ in range(count)) + "\n"


# ---- Sections whose nesting is near the parser's bounds: what comes before and after a part, and how much deeper it makes the whole

PARTS = [("-", "", 1), ("NOT ", "", 1), ("!", "", 1), ("A + ", "", 1), ("A * ", "", 1), ("A & ", "", 1), ("A | ", "", 1), ("F(", ")", 1), ("F(A, ", ")", 1),
         ("A!", "", 1), ("A -> ", ", B", 1), ("A -> B, ", "", 1), ("A = ", "", 1), ("A << ", "", 1), ("A NEQV ", "", 1), ("A - ", "", 1), ("", "!A", 1),
         ("", " + A", 1), ("", "(A)", 1), ("", " -> A, B", 1), ("(", ")", 0)]
BODIES = [("IF A DO ", "", 1), ("UNLESS A DO ", "", 1), ("WHILE A DO ", "", 1), ("$( ", " $)", 1), ("TEST A THEN ", " ELSE F()", 1), ("TEST A THEN F() ELSE ", "", 1),
          ("FOR I = 1 TO 3 DO ", "", 1), ("SWITCHON A INTO $( CASE 1: ", " $)", 1), ("$( LET X = 1; ", " $)", 1), ("$( LET V = VEC 2; ", " $)", 1),
          ("$( L: ", " $)", 1), ("$( F(); ", " $) REPEAT", 2), ("$( ", " $) REPEATWHILE A", 2)]
VALOFS = [("A := VALOF ", "", 2), ("F(VALOF $( ", " $))", 2), ("IF VALOF $( ", " $) DO F()", 2)]
CHAINS = [" + A", "!A", " * A", "(A)", " & A", " | A"]


def deep_section(seed):
    """A section that nests about 200 deep, or has about 400 open parentheses."""
    chance = random.Random(seed)
    depth = chance.randint(188, 203)

    def nested(text, height, most, forms, has_brackets):
        while height < most:
            before, after, more = chance.choice(forms)
            text = f"{before}({text}){after}" if has_brackets and chance.random() < 0.9 else before + text + after
            height += more
        return text

    def value(most, forms):
        return nested(chance.choice("A B G 7 0 600 TRUE S F".split()), 1, most, forms, True)

    def command(most, forms):
        return nested(chance.choice(["F()", "A := B", "RETURN", "G := 0"]), 2, most, forms, False)
    kind = seed % 6
    if kind == 0:
        body = "A := " + value(depth - 3, chance.sample(PARTS[:-1], chance.randint(1, 4)))
    elif kind == 1:
        body = "A := A" + chance.choice(CHAINS) * (depth - 3)
    elif kind == 2:
        body = command(depth - 2, chance.sample(BODIES, chance.randint(1, 4)))
    elif kind == 3:
        body = command(depth - 2, chance.sample(BODIES, 2) + chance.sample(VALOFS, 1))
    elif kind == 4:
        body = "A := VALOF " + command(depth - 4, [("RESULTIS VALOF ", "", 2)] + chance.sample(BODIES[:4], chance.randint(0, 2)))
    else:
        count = chance.randint(390, 402)
        body = "A := " + "(" * count + value(chance.randint(2, 190), [form for form in PARTS[:-1] if form[0] != "F("]) + ")" * count
    return f"GLOBAL $( G:100 $)\nSTATIC $( S = 5 $)\nLET F(A, B) = A\nAND START() BE\n$( LET A, B = 1, 2\n{body}\n$)\n"
