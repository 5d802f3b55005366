#!/usr/bin/env python3
"""Brings the repository's own definitions and lemmas to the spelling of today's Rattle: words in snake case, a dash only between two names.

usage: python3 tools/respell.py      at the top, right after port.py, once

Renames by whole words: in crates/ (specs, proofs, contracts, must-fail edits) and, inside backquotes, in README.md and docs/.
A name whose new spelling stands somewhere already keeps its dashes, or is told ('falls together').
"""
import functools
import glob
import re
import sys

WORD = r"[^\s(){},;.\\@\"`◌]+"
DECL = re.compile(r"^\s*(?:(?:abbrev|unfoldable|pub|data|record|ruleset)\s+)*(%s)\s+:(?![=:])\s" % WORD)
HEAD = re.compile(r"^\s*(?:(?:abbrev|unfoldable|pub)\s+)*(?:data|record|ruleset)\s+(%s)" % WORD)
HOLED = re.compile(r"^\s*(?:(?:abbrev|unfoldable|pub)\s+)*((?:◌?[A-Za-z][\w']*◌?)+)\s+:(?![=:])\s")
TOKEN = re.compile(r"[A-Za-z_][\w'≤≢≡∷]*(?:-[\w'≤≢≡∷]+)*")
STANDARD = {"length", "take", "drop", "get_or", "set", "replicate", "append", "map", "sum", "mul", "add", "sub", "min", "max", "cons", "cond", "eqb", "leb", "ltb"}
EXTRA = {"getD": "get_or"}


def files(*patterns):
    return sorted({f for p in patterns for f in glob.glob(p, recursive=True) if "/out/" not in f})


@functools.lru_cache(maxsize=None)
def snake(part):
    if part in EXTRA:
        return EXTRA[part]
    for old, new in EXTRA.items():
        part = re.sub(old + "$", "_" + new, part)
    if not part or not part[0].islower():
        return part
    return re.sub(r"(?<=[a-z0-9'])([A-Z])", lambda m: "_" + m.group(1).lower(), part)


def read(f):
    with open(f, encoding="utf-8") as it:
        return it.read()


def is_own(f):
    """The proof of one function names its goals; its own names stay, as it is written anew."""
    return not f.endswith("/Proof.antt")


def declared(antt):
    names, holes, words = set(), set(), set(STANDARD)
    for f in antt:
        for line in read(f).split("\n"):
            m = DECL.match(line) or HEAD.match(line)
            if m and is_own(f):
                names.add(m.group(1))
                if "/specs/" in f:
                    words.add(snake(m.group(1)))
            m = HOLED.match(line)
            if m and "◌" in m.group(1):
                holes.add(m.group(1).replace("◌", ""))
    return names, holes, words


def imported(antt):
    """Names that come from the libraries: they are not ours to rename."""
    out = set()
    for f in antt:
        for path, names in re.findall(r"^(?:ghost )?use ([\w.·]+)\.\{([^}]*)\}", read(f), re.M):
            own = path.startswith("Rattle.") and path.split(".")[1] not in ("std", "core", "io", "bytes", "check", "libc", "os")
            if not own:
                out |= {n.split(" as ")[0].strip() for n in names.split(",")}
    return out


def joined(parts, words):
    text = parts[0]
    for left, right in zip(parts, parts[1:]):
        text += ("-" if left in words and right in words else "_") + right
    return text


def standing(antt):
    """Names of proofs and definitions (paths and fields apart) that a new one must not meet."""
    out = set()
    for f in antt:
        code = re.sub(r"^use [\w.+·]+", "", read(f), flags=re.M)
        out |= set(re.findall(r"(?<![.\w'-])" + TOKEN.pattern, re.sub(r"--.*", "", code)))
    return out


def hidden(rt):
    """Parameters of the code by the words that stand in the same file: such a parameter would hide a word of its name."""
    for f in rt:
        code = re.sub(r"//.*", "", read(f))
        words = {n.strip() for names in re.findall(r"^ghost use [\w.]+\.\{([^}]*)\}", code, re.M) for n in names.split(",")}
        for head in re.findall(r"\bfn \w+\s*(?:<[^>]*>)?\(([^)]*)\)", code):
            for parameter in re.findall(r"\b([a-z_]\w*)\s*:(?!:)", head):
                yield from ((word, parameter) for word in words if snake(word) == parameter and word != parameter)


def renames(antt, rt):
    names, holes, words = declared(antt)
    names -= imported(antt) | imported(rt)
    stands = standing(antt)
    table = {n: snake(n) for n in sorted(holes) if snake(n) != n}
    # a lemma that port.py gave the spelling of a definition gets its dashes back
    for n in sorted(names):
        if "-" not in n and snake(n) != n and snake(n) in stands:
            table[snake(n)] = snake(n).replace("_", "-")
            if table[snake(n)] in stands:
                print(f"falls together: {n} and {snake(n)}", file=sys.stderr)
    hides = dict(hidden(rt))
    for n in sorted(names, key=lambda n: ("-" in n, n)):
        if not re.match(r"[A-Za-z]", n) or n in table:
            continue
        parts = [snake(p) for p in n.split("-")]
        wanted = [joined(parts, words), "-".join(parts)]
        if "-" not in n and snake(n) != n:
            table[n] = wanted[0]
            if n in hides:
                print(f"is hidden: {n} by {hides[n]}", file=sys.stderr)
            continue
        free = [w for w in wanted if w == n or w not in stands and w not in table.values()]
        if not free:
            print(f"falls together: {n} and {wanted}", file=sys.stderr)
        elif free[0] != n:
            table[n] = free[0]
    return table


def turned(text, table):
    def other(m):
        word = m.group(0)
        # after a dot stands a field, or a function's name in a path
        of_code = m.start() > 0 and text[m.start() - 1] == "." and word == snake(word) and "-" not in word
        return word if of_code else table.get(word, word)

    return TOKEN.sub(other, text)


def camel_only(table):
    return {a: b for a, b in table.items() if snake(a) != a and "-" not in a}


def turn_antt(text, tables):
    """Comments keep the dashes of English words: only names that no English word has are turned there."""
    out = []
    for line in text.split("\n"):
        code, dashes, comment = line.partition("-- ") if not line.lstrip().startswith("--") else ("", "", line)
        out.append(turned(code, tables[0]) + dashes + turned(comment, tables[1]))
    return "\n".join(out)


def turn_code(text, tables):
    return turned(text, tables[1])


def turn_edit(text, tables):
    source = re.search(r"^file: (.*)$", text, re.M).group(1)
    return turned(text, tables[0 if source.endswith(".antt") else 1])


def turn_page(text, tables):
    return re.sub(r"`[^`\n]+`", lambda m: turned(m.group(0), tables[0]), text)


def main():
    antt, rt = files("crates/**/*.antt"), files("crates/**/*.rt")
    table = renames(antt, rt)
    jobs = [(antt, turn_antt), (rt, turn_code), (files("crates/*/must-fail/*.edit"), turn_edit), (files("README.md", "docs/**/*.md"), turn_page)]
    tables = (table, camel_only(table))
    changed = 0
    for some, turn in jobs:
        for f in some:
            text = read(f)
            new = turn(text, tables)
            if new != text:
                changed += 1
                with open(f, "w", encoding="utf-8") as it:
                    it.write(new)
    print(f"respell: {len(table)} names, {changed} files")


if __name__ == "__main__":
    main()
