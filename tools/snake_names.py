#!/usr/bin/env python3
"""Spells the names of this repository's definitions and lemmas in snake case, as Rattle's libraries spell theirs.

usage: tools/snake_names.py [--check] ROOT

A word is turned where an .antt file below ROOT/crates declares it: a capital after a small letter or a digit becomes `_` and the small letter,
and a dash becomes `_`. Types, facts and modules begin with a capital and stay, but for the module inner, which becomes Inner. So do the letters
of the gates in Row, and every name of Rattle's library and every label that Rattle makes, as `returns-in_default`. It turns .antt files whole, .rt files
in clauses, `ghost use` and comments, edits as the file that they edit, and code spans in .md files. --check writes nothing and lists the names.
A second run changes nothing. A name that would meet another is said, and nothing is written.
"""

import collections
import os
import re
import sys

WORD = r'[^\s(){}.;,@"«»\x60]+'
MARKS = r"(?:(?:unfoldable|abbrev|pub|pattern) )*"
SIGNATURE = re.compile(rf"^( *){MARKS}({WORD}(?: {WORD})*)(?: \{{[^{{}}]*\}})* :(?:\s+(.*))?$")
LET = re.compile(rf"(?<![^\s(])(?:let|in let) ({WORD})")
BINDER = re.compile(rf"[({{]({WORD}(?: {WORD})*) :(?=\s)")
LEFT = re.compile(rf"^ *{WORD}((?: {WORD})+) =(?=\s|$)")
ALIAS = re.compile(rf"{WORD} as ({WORD})")
IMPORT = re.compile(r"\buse ((?:Rattle\.(?:std|core)|mathlib|Prim|native|lib|grothendieck)\b[^\s{{]*?)\.?\{([^}]*)\}", re.S)
# Names that would meet another: a lemma that would have its function's name gets `_lem`, a field says what it states. Each by the paths where it is so named.
MEET = [
    ("", "after-row clear-partner-v clear-partner-w clear-v commutation-number first-digit legal-power legal-second next-digit no-v number-at of-kind "
         "put-a put-m put-s put-x put-z refusal-number row-numbers", "{}_lem"),
    ("crates/synthesis/(?!proofs/Identity)", "unit-x unit-z", "column_is_{1}"),
    ("", "unit-x unit-z", "{}_lem"),
    ("", "v-at w-at", "{0}_becomes"),
    ("crates/synthesis/proofs/[A-Z]", "w_at", "{0}_becomes"),  # where another script has turned the field w-at, and not the function wAt
    ("", "v-of", "v_of_column"),
]
# names that differ before and are alike after, in modules of which neither sees the other
APART = [{"no-row", "noRow"}, {"up-from", "upFrom"}]
# the labels that Rattle makes, which answers and invariants declare anew
MADE = re.compile(
    r"^(?:returns|loop|invariant|decreases|bounds|overflow_\w+|slice_bounds|nonzero_\w+|in)-|-(?:requires|in-loop-\w+|smaller|preserved|init)\b|-requires-|-clause-"
)
OF_A_GOAL = re.compile(r"^(?:goal|need|needs|rules)\b")


def snake(name):
    if not name[0].islower() or "◌" in name:
        return name
    return re.sub(r"(?<=[a-z0-9])[A-Z]+", lambda m: "_" + m[0].lower(), re.sub("-[A-Z]", lambda m: m[0].lower(), name)).replace("-", "_")


def spelled(name, path):
    """The new spelling of a declared name, in the file at path."""
    for where, names, form in MEET:
        if name in names.split() and re.match(where, path):
            return form.format(snake(name), *snake(name).split("_")) if form.startswith("{}") else form.format(*snake(name).split("_"))
    return snake(name)


def files(root):
    for at, folders, names in os.walk(root):
        folders[:] = sorted(f for f in folders if f not in ("out", ".git"))
        for n in sorted(names):
            yield os.path.relpath(os.path.join(at, n), root)


def read(path):
    with open(path, encoding="utf-8", newline="") as f:
        return f.read()


def uncommented(text):
    return re.sub(r"(?m)(^|\s)--(?=\s).*$", r"\1", text)


def declared(path, text):
    """The words that a file declares: definitions, lemmas, fields, constructors, helpers, local names."""
    answers = re.search(r"/proofs/.+/(Answers|Invariants|Proof)\.antt$", path)
    for line in uncommented(text).split("\n"):
        if re.match(r"\s*(?:pub )?use\b", line):
            continue
        m = SIGNATURE.match(line)
        if m and not (answers and (MADE.search(m[2]) or not m[1] and (OF_A_GOAL.match(m[3] or "") or path.endswith("Proof.antt")))):
            yield from m[2].split()
        yield from LET.findall(line)
        for names in BINDER.findall(line) + LEFT.findall(line):
            yield from (w for w in names.split() if "-" in w)
    yield from ALIAS.findall(text)


def imported(text):
    """The names that a file takes from Rattle's library."""
    return {w.split(" as ")[0].strip() for _, names in IMPORT.findall(text) for w in names.split(",")}


def own_names(root):
    """All words that the .antt files declare and that get another spelling."""
    names, files_of = set(), collections.defaultdict(set)
    for path in files(root):
        if path.startswith("crates/") and path.endswith(".antt"):
            for name in declared(path, read(os.path.join(root, path))):
                if name[0].islower():
                    files_of[spelled(name, path)].add((name, path))
                    if snake(name) != name:
                        names.add(name)
    if "wAt" in names:
        names.add("w_at")
    return names, files_of


CAPITAL_INSIDE = r"[a-z][a-z0-9]*(?:[A-Z]+[a-z0-9]*)+"


def turned(text, path, own, keep=(), code=True):
    """The text with each own word turned; in code also each other name with a capital inside, a local one, since none of Rattle's has one."""

    def one(m):
        bare = m[0].rstrip("'")
        if bare in keep or bare not in own and not (code and re.fullmatch(CAPITAL_INSIDE, bare)):
            return m[0]
        return spelled(bare, path) + m[0][len(bare) :]

    return re.sub(r"(?<![\w-])[a-z][\w'∣₀-₉ₙ-]*", one, text)


def capitals(text, path, own):
    """The text with each own word that has a capital inside turned."""
    return re.sub(rf"(?<![\w-]){CAPITAL_INSIDE}(?![\w-])", lambda m: spelled(m[0], path) if m[0] in own else m[0], text)


def prose(text, path, own):
    """A comment: its code spans, and elsewhere the words with a capital inside."""
    parts = re.split(r"(\x60[^\x60\n]*\x60)", text)
    return "".join(turned(t, path, own, code=False) if k % 2 else capitals(t, path, own) for k, t in enumerate(parts))


def by_lines(text, path, own, comment, keep=()):
    out = []
    for line in text.split("\n"):
        m = re.search(comment, line)
        code, rest = (line, "") if not m else (line[: m.start()], line[m.start() :])
        out.append(turned(code, path, own, keep) + prose(rest, path, own))
    return "\n".join(out)


def modules(text):
    """The module inner, in a path, a declaration or a file's name."""
    text = re.sub(r"(?<=specs[./])inner\b|(?<=specs::)inner\b", "Inner", text)
    return re.sub(r"(?m)^((?:pub )?mod )inner$", r"\1Inner", text)


def new_text(path, text, own):
    if path.startswith("crates/"):
        if path.endswith(".antt"):
            text = by_lines(text, path, own, r"(?:^|\s)--(?=\s)", imported(text))
        elif path.endswith(".rt"):
            text = by_lines(text, path, own, r"//")
        elif path.endswith(".edit"):
            text = turned(text, path, own)
        else:
            return text
        return modules(text)
    if path.endswith(".md") and path != "docs/PORT.md" or re.match(r"(?:include|examples|tests|bench)/.*\.(?:h|c|py|md)$", path):
        return modules(prose(text, path, own))
    return text


def main(argv):
    check = "--check" in argv
    argv = [a for a in argv if a != "--check"]
    if len(argv) != 1:
        print(__doc__)
        return 2
    root = argv[0]
    own, files_of = own_names(root)
    met = 0
    for new, olds in sorted(files_of.items()):
        if len({o for o, _ in olds}) > 1 and {o for o, _ in olds} not in APART:
            met += 1
            print(f"{new}: " + ", ".join(f"{o} ({p})" for o, p in sorted(olds)))
    print(f"{len(own)} names, {met} meet another")
    if check or met:
        return met > 0
    changed = 0
    for path in list(files(root)):
        whole = os.path.join(root, path)
        if not path.endswith((".antt", ".rt", ".edit", ".md", ".h", ".c", ".py")) or os.path.islink(whole):
            continue
        text = read(whole)
        new = new_text(path, text, own)
        if new != text:
            changed += 1
            with open(whole, "w", encoding="utf-8", newline="") as f:
                f.write(new)
    for path in sorted(files(root), reverse=True):
        moved = re.sub(r"/specs/inner(?=/|\.antt$)", "/specs/Inner", path) if path.startswith("crates/") else path
        if moved != path:
            os.makedirs(os.path.dirname(os.path.join(root, moved)), exist_ok=True)
            os.rename(os.path.join(root, path), os.path.join(root, moved))
            if not os.listdir(os.path.dirname(os.path.join(root, path))):
                os.rmdir(os.path.dirname(os.path.join(root, path)))
    print(f"{changed} files changed")
    return 0


if __name__ == "__main__":
    sys.exit(main(sys.argv[1:]))
