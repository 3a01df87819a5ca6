"""Lexers for Pygments: BCPL as docs/language.md has it, texts of INTCODE, and what a terminal shows."""
import re

from pygments.lexer import Lexer, RegexLexer, words
from pygments.token import Comment, Generic, Keyword, Literal, Name, Number, Operator, Punctuation, String, Text

DECLARING = ("GET", "LET", "AND", "BE", "MANIFEST", "STATIC", "GLOBAL", "VEC", "TABLE", "VALOF")
COMMANDS = ("BREAK", "BY", "CASE", "DEFAULT", "DO", "ELSE", "ENDCASE", "FINISH", "FOR", "GOTO", "IF", "INTO", "LOOP", "OR", "REPEAT", "REPEATUNTIL",
            "REPEATWHILE", "RESULTIS", "RETURN", "SWITCHON", "TEST", "THEN", "TO", "UNLESS", "UNTIL", "WHILE")
OPERATORS = ("EQ", "EQV", "GE", "GR", "LE", "LOGAND", "LOGOR", "LS", "LSHIFT", "NE", "NEQV", "NOT", "REM", "RSHIFT")


class BcplLexer(RegexLexer):
    name, aliases, filenames = "BCPL", ["bcpl"], ["*.bcpl"]
    flags = re.MULTILINE | re.DOTALL
    tokens = {"root": [
        (r"(//|\|\|)[^\n]*", Comment.Single),
        (r"/\*.*?\*/", Comment.Multiline),
        (r'"(\*.|[^"*\n])*"', String),
        (r"'(\*.|[^'*\n])'", String.Char),
        (r"#X[0-9A-Fa-f]+|#[0-7]+|\d+", Number),
        (r"\$[()][A-Za-z0-9.]*", Punctuation.Marker),
        (words(("TRUE", "FALSE"), prefix=r"\b", suffix=r"(?![\w.])"), Keyword.Constant),
        (words(DECLARING, prefix=r"\b", suffix=r"(?![\w.])"), Keyword.Declaration),
        (words(COMMANDS, prefix=r"\b", suffix=r"(?![\w.])"), Keyword),
        (words(OPERATORS, prefix=r"\b", suffix=r"(?![\w.])"), Operator.Word),
        (r"[A-Za-z][A-Za-z0-9.]*(?=\()", Name.Function),
        (r"[A-Za-z][A-Za-z0-9.]*", Name),
        (r":=|->|<=|>=|~=|<<|>>|/\\|\\/|[-+*/=<>&|~!@]", Operator),
        (r"[(),;:]", Punctuation),
        (r"\s+|.", Text),
    ]}


class IntcodeLexer(RegexLexer):
    name, aliases, filenames = "INTCODE", ["intcode"], ["*.int"]
    tokens = {"root": [
        (r"/[^\n]*", Comment.Single),
        (r"G\d+L\d+", Name.Variable),
        (r"[LSAJTFK]I?L\d+", Name.Function),
        (r"X\d+", Keyword),
        (r"[LSAJTFK]I?[PG]?-?\d+", Keyword.Declaration),
        (r"DL?-?\d+|C\d+", Literal),
        (r"Z", Keyword.Constant),
        (r"\d+", Name.Label),
        (r"\s+|.", Text),
    ]}


class TerminalLexer(Lexer):
    """Lines that begin with a dollar sign and a blank are commands; others are what was printed."""
    name, aliases = "terminal", ["console"]

    def get_tokens_unprocessed(self, text):
        at = 0
        for line in text.splitlines(keepends=True):
            if line.startswith("$ "):
                yield at, Generic.Prompt, "$ "
                yield at + 2, Generic.Strong, line[2:]
            else:
                yield at, Generic.Output, line
            at += len(line)


class ShellLexer(RegexLexer):
    """Commands without a dollar sign, with comments."""
    name, aliases = "commands", ["commands"]
    tokens = {"root": [(r"(^|(?<=\s))#[^\n]*", Comment.Single), (r"[^\s]+", Text), (r"\s+", Text)]}
    flags = re.MULTILINE


BY_NAME = {"bcpl": BcplLexer, "intcode": IntcodeLexer, "console": TerminalLexer, "commands": ShellLexer}
