"""A lexer for BCPL with words of 16 bits, for Pygments. docs/editors.md says how it is used, also from LaTeX's minted.

    pygmentize -x -l editors/pygments/bcpl.py:BcplLexer hello.bcpl
"""
from pygments.lexer import RegexLexer, bygroups, words
from pygments.token import Comment, Error, Keyword, Name, Number, Operator, Punctuation, String, Whitespace

END = r"(?![A-Za-z0-9.])"


def reserved(text):
    """The reserved words of a text, each as a whole name."""
    return words(tuple(sorted(text.split(), key=len, reverse=True)), suffix=END)


class BcplLexer(RegexLexer):
    """BCPL."""

    name = "BCPL (16 bits)"
    aliases = ["bcpl16", "bcpl"]
    filenames = ["*.bcpl"]
    mimetypes = []
    flags = 0

    tokens = {
        "root": [
            (r"\s+", Whitespace),
            (r"(?://|\|\|).*", Comment.Single),
            (r"/\*", Comment.Multiline, "comment"),
            (r'"', String.Double, "string"),
            (r"'(?:\*[NTSBPCntsbpc\"'*]|[^*'\n])'", String.Char),
            (r"(GET)" + END, Keyword.Namespace),
            (reserved("LET AND MANIFEST STATIC GLOBAL BE VALOF VEC TABLE"), Keyword.Declaration),
            (reserved("IF UNLESS TEST THEN ELSE OR DO SWITCHON INTO CASE DEFAULT FOR TO BY WHILE UNTIL REPEAT REPEATWHILE REPEATUNTIL "
                      "BREAK LOOP ENDCASE RETURN FINISH RESULTIS GOTO"), Keyword),
            (reserved("TRUE FALSE"), Keyword.Constant),
            (reserved("EQ NE LS LE GR GE LSHIFT RSHIFT LOGAND LOGOR NOT EQV NEQV REM"), Operator.Word),
            (r"[A-Za-z][A-Za-z0-9.]*(?=\s*\()", Name.Function),
            (r"[A-Za-z][A-Za-z0-9.]*", Name),
            (r"#X[0-9A-Fa-f]+", Number.Hex),
            (r"#[0-7]+", Number.Oct),
            (r"[0-9]+", Number.Integer),
            (r"\$[()][A-Za-z0-9.]*", Punctuation),
            (r":=|->|/\\|\\/|~=|<=|>=|<<|>>|[-+*/&|=<>~!@:]", Operator),
            (r"[,;()]", Punctuation),
        ],
        "comment": [
            (r"[^*]+", Comment.Multiline),
            (r"\*/", Comment.Multiline, "#pop"),
            (r"\*", Comment.Multiline),
        ],
        "string": [
            (r"[^*\"\n]+", String.Double),
            (r"\*[NTSBPCntsbpc\"'*]", String.Escape),
            (r"(\*)(.)", bygroups(Error, Error)),
            (r'"', String.Double, "#pop"),
            (r"\n", Whitespace, "#pop"),
        ],
    }
