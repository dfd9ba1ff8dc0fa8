#!/usr/bin/env python3
"""Brings the names that the crates declare in specs/ and proofs/ to one spelling, once, behind port.py:

- words in snake case: `nextHop` is `next_hop`;
- a dash between two names, and `_` before a plain word: `refusal-refuseWriting` is `refusal-refuse_writing`, `put-asks-nothing` is
  `put-asks_nothing`.

Functions, fields and types of src/, exported names, strings, inputs and outputs keep theirs. Names that fall together stop the script.
Run at the top of the repository: python3 tools/respell.py
"""
import glob
import re
import sys

TOKEN = re.compile(r"(?<![\w'])[^\W\d][\w']*(?:-[\w'<≤*+∷]+)*")
CAMEL = re.compile(r"(?<=[a-z0-9])([A-Z])")
# of std and of the logic, or of both: what a lemma's name may join by a dash
STD = set("""length append take drop get set map reverse sum filter fold find replicate zip add sub mul div mod pow suc pred zero one nil cons
min max and or not xor shl shr ones bits some none ok err eq ne lt le ltb leb eqb cond if""".split())
# words between names, whatever else has that name
BETWEEN = set("""of in at by no is the a an to on up as with without and here past other same self own alone more most two three four five six
seven eight nine all any each""".split())
WORD = re.compile(r"[a-z]")

def snake(part):
    if not part or not WORD.match(part[0]) or not CAMEL.search(part):
        return part
    return CAMEL.sub(lambda m: "_" + m.group(1), part).lower()


def files():
    antt = sorted(glob.glob("crates/*/specs/**/*.antt", recursive=True) + glob.glob("crates/*/proofs/**/*.antt", recursive=True))
    rt = sorted(glob.glob("crates/*/src/**/*.rt", recursive=True))
    edits = sorted(glob.glob("crates/*/must-fail/*.edit"))
    pages = ["README.md"] + sorted(glob.glob("docs/*.md")) + sorted(glob.glob("docs/landings/*.md"))
    return antt, rt, edits, pages


def declared(antt, rt):
    names = set()
    said = set()
    code = set()
    for path in rt:
        text = open(path).read()
        code |= set(re.findall(r"\bfn (\w+)", text)) | set(re.findall(r"^\s*(?:pub )?(\w+):", text, re.M))
    for path in antt:
        if path.endswith(("/Proof.antt", "/Invariants.antt", "/Answers.antt")):
            continue
        text = open(path).read()
        for line in text.split("\n"):
            m = re.match(r"\s*(?:(?:abbrev|unfoldable|pub) )*([^\W\d][^\s(){}]*) (?:\{[^}]*\} )?:(?: |$)", line)
            if m:
                found = {m.group(1)}
            else:
                # the constructors of a data type
                m = re.match(r"\s+((?:[^\W\d][\w'-]* )+): ", line)
                found = set(m.group(1).split()) if m and "=" not in m.group(1) else set()
            names |= found
            if "/specs/" in path:
                said |= found
    return {n for n in names if TOKEN.fullmatch(n)}, said, code


def turned(name, words):
    parts = [snake(p) for p in name.split("-")]
    out = parts[0]
    for before, here in zip(parts, parts[1:]):
        joins = before in words - BETWEEN and here in words - BETWEEN
        out += ("-" if joins else "_") + here
    return out


def main():
    antt, rt, edits, pages = files()
    names, said, code = declared(antt, rt)
    words = {snake(n) for n in names if "-" not in n} | code | STD | {n for n in names if n[:1].isupper() and "-" not in n}
    table = {name: turned(name, words) for name in names}
    # a lemma that would have the name of what it is about gets `_lem`, where a file has both
    tokens = {path: set(TOKEN.findall(open(path).read())) for path in antt + rt}
    groups, stuck = {}, False
    for name in sorted(names):
        groups.setdefault(table[name], []).append(name)
    for new, olds in sorted(groups.items()):
        meet = [path for path in tokens if len(tokens[path] & set(olds)) > 1]
        if len(olds) > 1 and meet:
            first = min(olds, key=lambda old: (old not in said, "-" in old))
            for old in olds:
                if old not in said and old != first:
                    table[old] = new + "_lem"
                    print("with _lem:", old, "->", table[old])
            left = [table[old] for old in olds]
            if len(set(left)) < len(left) or any(n in names and n not in olds for n in left):
                print("fall together:", new, "<-", ", ".join(olds), "in", ", ".join(meet))
                stuck = True
    if stuck:
        sys.exit(1)
    table = {name: new for name, new in table.items() if new != name}

    spelled = {table.get(name, name) for name in names}

    # a name of a crate stands for itself; any other word in camel case is a variable
    def crate_token(m):
        token = m.group(0)
        if token in table:
            return table[token]
        return "-".join(snake(p) for p in token.split("-"))

    def page_token(m):
        token = m.group(0)
        return table.get(token, snake(token) if snake(token) in spelled else token)

    # a comment's words are words, but for names in backticks and in camel case
    def comment(text):
        parts = re.split(r"(`[^`\n]*`)", text)
        return "".join(TOKEN.sub(crate_token, s) if i % 2 else TOKEN.sub(lambda m: m.group(0) if "-" in m.group(0) or not CAMEL.search(m.group(0))
                       else crate_token(m), s) for i, s in enumerate(parts))

    def line_by_line(text, mark):
        out = []
        for line in text.split("\n"):
            m = mark.search(line)
            at = m.start() if m else len(line)
            code = line[:at]
            # strings keep their words
            code = "".join(s if i % 2 else TOKEN.sub(crate_token, s) for i, s in enumerate(re.split(r'("(?:[^"\\]|\\.)*")', code)))
            out.append(code + comment(line[at:]))
        return "\n".join(out)

    count = 0
    for path in antt + rt + edits + pages:
        text = open(path).read()
        if path in pages:
            new = re.sub(r"`[^`\n]*`", lambda s: TOKEN.sub(page_token, s.group(0)), text)
        elif path.endswith(".rt"):
            new = line_by_line(text, re.compile(r"(?<!\S)//|(?<!\S)/\*"))
        elif path.endswith(".edit"):
            new = line_by_line(text, re.compile(r"^#"))
        else:
            new = line_by_line(text, re.compile(r"(?<!\S)--(?!\S)|^--"))
        if new != text:
            count += 1
            open(path, "w").write(new)
    print(f"{len(table)} names, {count} files")


main()
