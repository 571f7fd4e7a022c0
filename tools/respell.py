"""Respells this repository's own names: words in snake case, types in camel case.

Run once at the top, after the kit's port.py. The names stand in respelled.tsv beside this file. Turned are
definitions, lemmas, contracts, must-fail edits, and names that a page gives in backticks; functions of src/,
strings and comments of the code stay as they are.
"""
import pathlib
import re

HERE = pathlib.Path(__file__).resolve().parent
TOP = HERE.parent
NAMES = dict(line.split('\t') for line in (HERE / 'respelled.tsv').read_text().split('\n') if line)
# A name stands alone: no letter, digit, dash or prime touches it. A field's dot may.
TOKEN = re.compile(r"(?<![\w'\-])([A-Za-z_][\w']*(?:-[\w']+)*)(?![\w'\-])")
QUOTED = re.compile(r"«([\w'\-]+)»")


def turned(text):
    return TOKEN.sub(lambda m: NAMES.get(m.group(1), m.group(1)), text)


def in_source(line):
    """A line of code: its clauses and ghost imports, but no comment and no string."""
    code, mark, comment = line.partition('//')
    parts = re.split(r'("(?:[^"\\]|\\.)*")', code)
    parts[::2] = [unquoted(turned(part)) for part in parts[::2]]
    return ''.join(parts) + mark + comment


def unquoted(text):
    """Names of antt in snake case need no quotes in a clause; words of clauses do."""
    keep = {'record', 'ruleset', 'data', 'open'}
    return QUOTED.sub(lambda m: m.group(0) if m.group(1) in keep or '-' in m.group(1) else m.group(1), text)


def in_page(text):
    return re.sub(r'`[^`\n]+`', lambda m: turned(m.group(0)), text)


def main():
    for path in sorted(TOP.rglob('*')):
        if not path.is_file() or '.git' in path.parts or 'out' in path.parts or HERE in path.parents:
            continue
        if path.suffix not in {'.antt', '.rt', '.edit', '.md'}:
            continue
        old = path.read_text()
        if path.suffix == '.antt':
            new = turned(old)
        elif path.suffix == '.md':
            new = in_page(old)
        else:
            new = '\n'.join(in_source(line) for line in old.split('\n'))
        if new != old:
            path.write_text(new)


main()
