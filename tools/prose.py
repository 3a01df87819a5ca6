"""What a script can check of the style of docs/STYLE.md: words, sentences, heads of files, READMEs, and the number of parameters.

Each function yields complaints, a line each. `KNOWN` (tools/house.known) lists what is tolerated: it may only shrink.
"""
import os
import re
import subprocess

from repository import TOP, crates

# Words of German order and preposition, which docs/STYLE.md replaces. Code, and text within backticks or double quotes, is left out.
WORDS = re.compile(
    r"\b(behind|in front of|stands? (?:for|on|in|at|there|here)|told apart|are told|is told|in the place of|lets? go of|anew|worked out|works out"
    r"|for want of|at hand)\b", re.I)
LONGEST_SENTENCE = 40
# "That the lines are right is tested": a clause as the subject of a sentence.
CLAUSE = re.compile(r"(?:[-*] )?That (?:.+ )?(?:is|isn.t|are|aren.t|has|have|fits) .+ (?:is|isn.t) (?:not )?(?:tested|proved|said|read|compared|shown)\b")
# The headline is stated word for word wherever it is, with a paraphrase beside it.
HEADLINE = "*For every accepted program, a run of its source that meets no wild cell in n turns has the same output"
MOST_PARAMETERS = 5


def tracked(*patterns):
    """The files that git tracks here, by these patterns."""
    listed = subprocess.run(["git", "ls-files", "-z", "--", *patterns], cwd=TOP, check=True, stdout=subprocess.PIPE, text=True)
    return [name for name in listed.stdout.split("\0") if name and os.path.isfile(os.path.join(TOP, name))]


def read(path):
    """A file's text."""
    with open(os.path.join(TOP, path), encoding="utf-8") as file:
        return file.read()


def comments_of(path, text):
    """The comments of a source, a string for each line that has one."""
    mark = r"//[/!]?(.*)" if path.endswith(".rt") else r"(?:^|\s)--(.*)"
    return [found[1] for line in text.splitlines() if (found := re.search(mark, line))]


def prose_of(path, text):
    """The lines that people read in a file: comments of sources; of a page what is neither code nor indented as a listing."""
    if path.endswith((".rt", ".antt")):
        return comments_of(path, text)
    lines, is_code = [], False
    text = re.sub(r"<!-- The list of files begins here.*?The list of files ends here. -->", "", text, flags=re.S)
    for line in text.splitlines():
        if line.startswith("```"):
            is_code = not is_code
        elif not is_code and not line.startswith("    "):
            lines.append(line)
    return lines


def without_quotes(line):
    """A line without what is in backticks or double quotes."""
    return re.sub(r"`[^`]*`|\"[^\"]*\"", " ", line)


def count_words():
    """For each file that people read, how many of the listed words it has."""
    found = {}
    for path in tracked("*.md", "crates/*.rt", "crates/*.antt"):
        if path in ("docs/STYLE.md", "docs/history.md") or path.startswith("crates/") and "/proofs/" in path:
            continue
        count = sum(len(WORDS.findall(without_quotes(line))) for line in prose_of(path, read(path)))
        if count:
            found[f"words {path}"] = count
    return found


def sentences_of(text):
    """The sentences of a page's paragraphs; tables, headings and lists' marks aside."""
    for paragraph in re.split(r"\n\s*\n", "\n".join(prose_of("page.md", text))):
        lines = [line for line in paragraph.splitlines() if not line.startswith(("|", "#"))]
        for item in re.split(r"\n(?=\s*(?:[-*]|\d+\.)\s)", "\n".join(lines)):
            yield from re.split(r"(?<=[.!?:])\s+(?=[A-Z`*\[])", " ".join(item.split()))


def count_sentences():
    """For each page of docs/ and each README, how many sentences are too long, and how many have a clause with "That" as their subject."""
    found = {}
    for path in tracked("docs/*.md", "*README.md", "CONTRIBUTING.md"):
        sentences = [sentence for sentence in sentences_of(read(path)) if not sentence.startswith(HEADLINE)]
        count = sum(len(sentence.split()) > LONGEST_SENTENCE for sentence in sentences)
        if count:
            found[f"sentences {path}"] = count
        count = sum(bool(CLAUSE.match(sentence)) for sentence in sentences)
        if count:
            found[f"clauses {path}"] = count
    return found


def count_heads():
    """Sources without a comment at their head."""
    found = {}
    for path in tracked("crates/*.rt", "crates/*.antt"):
        text = read(path)
        if path.endswith(".rt") and not text.startswith("//!"):
            found[f"heads {path}"] = 1
        if "/specs/" in path and not path.endswith("/Lib.antt") and not text.startswith("--"):
            found[f"heads {path}"] = 1
    return found


def count_readmes():
    """Crates without a README of ten to thirty lines."""
    found = {}
    for crate in crates():
        path = os.path.join("crates", crate, "README.md")
        if not os.path.exists(os.path.join(TOP, path)):
            found[f"readme crates/{crate}"] = 1
        elif not 10 <= read(path).count("\n") <= 30:
            found[f"readme {path}"] = 1
    return found


def parameters_of(text):
    """The functions of a source with how many parameters each has, the receiver included."""
    for found in re.finditer(r"^\s*(?:pub(?:\([^)]*\))? )?(?:const )?(?:unsafe )?fn (\w+)(?:<[^{;]*?>)?\(", text, re.M):
        depth, count, is_empty = 1, 0, True
        for at in range(found.end(), len(text)):
            char = text[at]
            if char in "([{<":
                depth += 1
            elif char in ")]}" or (char == ">" and text[at - 1] not in "-="):
                depth -= 1
            if depth == 0:
                break
            if char == "," and depth == 1:
                count += 1
                is_empty = True
            elif not char.isspace():
                is_empty = False
        yield found[1], count + (not is_empty)


def count_parameters():
    """Functions with too many parameters."""
    found = {}
    for path in tracked("crates/*.rt"):
        many = [name for name, count in parameters_of(read(path)) if count > MOST_PARAMETERS]
        if many:
            found[f"parameters {path}"] = len(many)
    return found


def count_all():
    """All that is counted: a kind and a path, and how often."""
    counts = {}
    for count in (count_words, count_sentences, count_heads, count_readmes, count_parameters):
        counts.update(count())
    return counts


MEANINGS = {
    "words": "words that docs/STYLE.md replaces",
    "sentences": f"sentences of more than {LONGEST_SENTENCE} words",
    "clauses": "sentences with a clause as their subject (That .. is tested)",
    "heads": "no comment at its head",
    "readme": "no README.md of ten to thirty lines",
    "parameters": f"functions with more than {MOST_PARAMETERS} parameters",
}
