#!/usr/bin/env python3
"""Spells the repository's own names of specs/ and proofs/ in snake case, as 'word-refusal' to 'word_refusal'.

usage: python3 tools/snake_names.py [--check]     at the top of the repository, once, after the kit's port.py

It turns the names that the texts below crates/*/specs and crates/*/proofs declare or bind: definitions, lemmas, fields, constructors,
parameters and local names. It leaves what Rattle makes: a name that an Answers or Invariants file declares for a goal, and any name that
only stands behind 'goal.' or comes from a library. In sources it turns clauses and imports and neither strings nor comments (an
unspaced dash stands in no other code); in wrong edits the same. In docs/ and README.md it turns names in code spans. --check
writes nothing. It lists what it turns, and stops where two names of one file would fall together.
"""

import glob
import re
import sys

NAME = r'[^\s(){}.;,@"«»:\[\]|]+'
WORD = re.compile(r'[^\s(){}.;,@"«»\[\]|]+')
HEADS = r"(?:(?:abbrev|pub|unfoldable|opaque|record|data|type|open|rec|enum) +)*"
DECLARED = re.compile(rf"^ *{HEADS}({NAME})(?: \{{[^{{}}]*\}}| \([^()]*\))* :(?= |$)")
BOUND = re.compile(rf"(?:\blet |λ |as )\(?((?:{NAME} ?)+?)(?= [:=]|\.|,|\))")
GROUP = re.compile(rf"[({{]((?:{NAME} )+): ")
CONSTRUCTOR = re.compile(rf"^ *\| *({NAME})(?= |$)")
FIELD = re.compile(rf"(?:^|[{{;])\s*({NAME}) =(?= )")
QUIET_ANTT = re.compile(r'"(?:[^"\\\n]|\\.)*"|(?<![^\s(){}.;,@"«»])--[^\n]*|\{-.*?-\}', re.S)
QUIET_RT = re.compile(r'//[^\n]*|/\*.*?\*/|b?"(?:\\.|[^"\\])*"|b?\'(?:\\.|[^\'\\\n])\'', re.S)
SPAN = re.compile(r"`[^`\n]+`")
GOAL = re.compile(rf"^ *(?:abbrev |pub )*({NAME}) : (?:goal|need|given)\.")
MADE = re.compile(r"(?:Answers|Invariants)\.antt$")


def read(path):
    with open(path, encoding="utf-8") as f:
        return f.read()


def antt_files():
    return sorted(glob.glob("crates/*/specs/**/*.antt", recursive=True) + glob.glob("crates/*/proofs/**/*.antt", recursive=True))


def rt_files():
    return sorted(glob.glob("crates/*/src/**/*.rt", recursive=True))


def imported(text):
    """The names that a text imports from a library, and from the repository, as each stands there."""
    theirs, ours = set(), set()
    for m in re.finditer(r"\buse (\S+?)\.\{([^}]*)\}", text):
        head = m[1].split(".")
        is_ours = len(head) > 1 and head[0] == "Rattle" and head[1] in OURS
        for item in m[2].split(","):
            item = item.strip()
            if item:
                (ours if is_ours else theirs).add(item.split(" as ")[-1].strip())
    return theirs, ours


def names_of(text, is_made):
    """The names with a dash that a text declares or binds, and those that it declares for goals."""
    own, made = set(), set()
    code = QUIET_ANTT.sub(" ", text)
    for line in code.split("\n"):
        goal = GOAL.match(line) if is_made else None
        if goal:
            made.add(goal[1])
            continue
        m = DECLARED.match(line) or CONSTRUCTOR.match(line)
        if m:
            own.add(m[1])
        for group in GROUP.finditer(line):
            own.update(group[1].split())
        for bound in BOUND.finditer(line):
            own.update(bound[1].split())
    return {n for n in own if "-" in n and re.search(r"\w-\w", n)}, made


def snake(name):
    for camel, plain in (("getD", "get_or"), ("putMid", "put_mid"), ("leftComm", "left_comm")):
        name = name.replace(camel, plain)
    return re.sub(r"(?<=[\w'])-(?=\w)", "_", name)


def turn(text, quiet, table, leave):
    def word(m):
        w = m[0]
        return w if w in leave else table.get(w, w)

    out, at = [], 0
    for q in quiet.finditer(text):
        out.append(WORD.sub(word, text[at : q.start()]))
        spoken = q[0]
        if spoken.startswith(("--", "//", "{-", "/*")):
            spoken = SPAN.sub(lambda s: WORD.sub(lambda w: table.get(w[0].strip("`"), w[0].strip("`")) if "`" not in w[0] else "`".join(table.get(p, p) for p in w[0].split("`")), s[0]), spoken)
        out.append(spoken)
        at = q.end()
    out.append(WORD.sub(word, text[at:]))
    return "".join(out)


OURS = {p.split("/")[1] for p in glob.glob("crates/*/src")}


def main(argv):
    write = "--check" not in argv
    own, made, theirs_all = set(), set(), {}
    texts = {}
    for path in antt_files():
        text = texts[path] = read(path)
        o, g = names_of(text, bool(MADE.search(path)))
        own |= o
        made |= g
        theirs_all[path] = imported(text)[0]
    table = {n: snake(n) for n in own - made} | {"block-size": "block_size", "mul-leftComm": "halves_regrouped"}
    kept = sorted(own & made)
    turned = {}
    # The words of a text after it is turned: two that fall together there are told.
    bad = []
    for path, text in texts.items():
        leave = {n for n in theirs_all[path] if "-" in n}
        new = turn(text, QUIET_ANTT, table, leave)
        before = set(WORD.findall(QUIET_ANTT.sub(" ", text)))
        for old in sorted(before & set(table) - leave):
            if table[old] in before:
                bad.append(f"{path}: {old} and {table[old]}")
        turned[path] = new
    for path in rt_files():
        text = texts[path] = read(path)
        new = turn(text, QUIET_RT, table, {n for n in imported(text)[0] if "-" in n})
        before = set(WORD.findall(QUIET_RT.sub(" ", text)))
        for old in sorted(before & set(table)):
            if table[old] in before:
                bad.append(f"{path}: {old} and {table[old]}")
        turned[path] = new
    for path in sorted(glob.glob("crates/*/must-fail/*.edit")):
        text = texts[path] = read(path)
        turned[path] = "".join(turn(l, QUIET_RT, table, set()) if l.startswith(("old:", "new:")) else l for l in text.splitlines(keepends=True))
    words = {w for new in turned.values() for w in WORD.findall(new)}

    def told(word):
        """A page's name as the texts have it now; the kit's script may have turned it in them and not in the page."""
        return table.get(word) or (snake(word) if word not in words and snake(word) in words else word)

    for path in sorted(glob.glob("docs/*.md")) + ["README.md"]:
        text = texts[path] = read(path)
        turned[path] = SPAN.sub(lambda s: re.sub(r"[^\s`(){}.;,@\"«»\[\]|]+", lambda w: told(w[0]), s[0]), text)
    print(f"{len(table)} names; kept, since Rattle makes names that are spelled alike: {', '.join(kept) or 'none'}")
    for line in bad:
        print("look: both stand in " + line)
    count = 0
    for path, new in turned.items():
        if new != texts[path]:
            count += 1
            if write:
                with open(path, "w", encoding="utf-8") as f:
                    f.write(new)
    print(f"{count} files {'turned' if write else 'to turn'}")


main(sys.argv[1:])
