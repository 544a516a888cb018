#!/usr/bin/env python3
"""Brings the repository's own definitions and lemmas to snake case, as the library spells its own: admitted-by -> admitted_by.

usage: python3 tools/rename_to_snake_case.py [ROOT]        once, right after port.py, at the top of the repository

A name is one that a file of specs/ or proofs/ declares with a dash in it; it is turned in those files and in the clauses and
'ghost use' lines of src/. Names that the library also has keep the library's spelling (KEPT). The names that Rattle makes for
goals and steps are not declared here, and stay. Two types had dashes or no capital, and are in camel case now.
Functions of src/, strings, inputs and outputs are not touched. It names the files in which two spellings become one: there one of
the two is a field, which stands behind a dot or before '=' or ':' and hides nothing.
"""
import os
import re
import sys

KEPT = set("""
all-at all-below and-false and-true at-is back-le below-insert both-length chain-below count-is cut-kept entry-is first-is
first-none found-is get-same highest-top if-same is-old kept-ge kept-le key-is le-inf least-is length-insert length-sorted
mul-pow not-below not-lt numbers-end or-true over-one pick-key place-back positive-finite pow-one pow-pow power-is put-new
second-of start-same tables-is there-same walk-next
""".split())
TYPES = {"Same-but-nan-bits": "SameButNanBits"}
OTHERS = {"label-parse": "label_parse_lem"}  # label_parse is a crate
# names that are bound by 'as', 'let' or a binder, and declared by no signature
ALSO = """
as-page at-begin at-visit below-a below-b ends-a ends-b kept-tags lent-stale level-reads new-use no-credit no-reserve rate-reads
rule-kind sender-name visited-tables want-or-mark
""".split()
# in these files the first name is a family of types
IN_FILES = {"fair/proofs/Entry.antt": {"wide_of": "WideOf"}}

WORD = r"[^\s:(){}\[\];,.«»\"λ→×=`]+"
SIGNATURE = re.compile(r"^\s*(?:(?:abbrev|unfoldable|pub|data|record|infixl|infixr|infix)\s+)*((?:" + WORD + r"\s+)*" + WORD + r")\s*:(?!=)\s*(.*)$")
OF_RATTLE = re.compile(r"\b(tie|goal)\.|statement M")
CLAUSE = re.compile(r"\b(?:requires|ensures|ghost)\b[^{};]*\{")


def read(path):
    with open(path, encoding="utf-8") as it:
        return it.read()


def files(root, ending):
    for folder, dirs, names in os.walk(os.path.join(root, "crates")):
        dirs[:] = sorted(d for d in dirs if d not in ("out", "must-fail"))
        for name in sorted(names):
            if name.endswith(ending):
                yield os.path.join(folder, name)


def declared(root):
    found = set()
    for path in files(root, ".antt"):
        made = os.path.basename(path) in ("Proof.antt", "Answers.antt", "Invariants.antt")
        for line in read(path).split("\n"):
            it = SIGNATURE.match(re.sub(r"--.*$", "", line))
            if it and not (made and OF_RATTLE.search(it.group(2))):
                found.update(w for w in it.group(1).split() if "-" in w)
    return found


def turned(text, names):
    return re.sub(WORD, lambda it: names.get(it.group(0), it.group(0)), text)


def turn_antt(text, names):
    lines = []
    for line in text.split("\n"):
        at = re.search(r"--", line)
        code, comment = (line[: at.start()], line[at.start() :]) if at else (line, "")
        comment = re.sub(r"`[^`]*`", lambda it: turned(it.group(0), names), comment)
        lines.append(turned(code, names) + comment)
    return "\n".join(lines)


def turn_rt(text, names):
    """The clauses, the 'ghost use' items, and what stands in backquotes in a comment."""
    out, at = [], 0
    text = re.sub(r"(?m)^\s*ghost use [^;]*;", lambda it: turned(it.group(0), names), text)
    text = re.sub(r"(?m)//.*$", lambda it: re.sub(r"`[^`]*`", lambda w: turned(w.group(0), names), it.group(0)), text)
    for it in CLAUSE.finditer(text):
        if it.start() < at or text.rfind("//", text.rfind("\n", 0, it.start()) + 1, it.start()) >= 0:
            continue
        depth, end = 1, it.end()
        while depth:
            depth += {"{": 1, "}": -1}.get(text[end], 0)
            end += 1
        out += [text[at : it.end()], turned(text[it.end() : end], names)]
        at = end
    return "".join(out) + text[at:]


def words(text):
    return set(re.findall(WORD, re.sub(r"--.*", "", text)))


def main(root):
    names = {n: n.replace("-", "_") for n in declared(root).union(ALSO) if n not in KEPT} | TYPES | OTHERS
    together, changed = [], {}
    for ending, turn in ((".antt", turn_antt), (".rt", turn_rt)):
        for path in files(root, ending):
            old = read(path)
            here = next((more for end, more in IN_FILES.items() if path.endswith(end)), {})
            new = turn(old, names | here)
            if new != old:
                changed[path] = new
            if ending == ".antt" and os.path.basename(path) not in ("Proof.antt", "Answers.antt"):
                have = words(old)
                together += [f"{path}: {n} and {names[n]}" for n in sorted(have & set(names)) if names[n] in have]
    for line in together:
        print("a field of the same spelling: " + line)
    for path, text in changed.items():
        with open(path, "w", encoding="utf-8") as it:
            it.write(text)
    print(f"{len(names)} names, {len(changed)} files")
    return 0


if __name__ == "__main__":
    raise SystemExit(main(next((a for a in sys.argv[1:] if not a.startswith("-")), ".")))
