#!/usr/bin/env python3
"""Counts the places of docs/DESIGN-PASS.md once more, by tokens and by signatures in place of lines of text.

usage: tools/count_again.py [--list]
"""
import collections
import glob
import re
import sys

TOKEN = re.compile(r"//[^\n]*|b?\"(?:\\.|[^\"\\])*\"|b?'(?:\\.|[^'\\])'|'\w+|\w+|◌|[^\s\w]")
FUNCTION = re.compile(r"\bfn\s+(\w+)\s*(?:<.*?>)?\((.*?)\)\s*(?:->\s*((?:\[[^\]]*\]|[^{;\n])+))?", re.S)


def tokens(text):
    return [t for t in TOKEN.findall(text) if not t.startswith("//")]


def parameters(text):
    depth, start, out = 0, 0, []
    for i, c in enumerate(text + ","):
        depth += (c in "<([{") - (c in ">)]}") * (text[i - 1 : i] != "-")
        if c == "," and depth <= 0:
            out.append(" ".join(text[start:i].split()))
            start = i + 1
    return [p for p in out if p]


def main():
    sources = {f: open(f).read() for f in sorted(glob.glob("crates/*/src/*.rt"))}
    places = collections.OrderedDict((k, []) for k in [
        "1 enums, by tokens", "1 functions that answer a bare place or number and name none in their words",
        "2 functions of one body up to names and numbers, eight tokens or more", "3 the words while and loop, by tokens",
        "3 ranges from 0 in a for, by tokens", "4 functions of one match or comparison that tell a value",
        "5 pairs of parameters that three functions or more share", "5 functions that take two slices or more",
        "6 functions that take a buffer of bytes and answer a length", "7 matches on a bare number, by tokens"])
    names = list(places)
    pairs, bodies = collections.defaultdict(list), collections.defaultdict(list)
    for f, text in sources.items():
        short = f.split("/", 1)[1].replace("/src", "")
        words = tokens(text)
        for i, w in enumerate(words[:-1]):
            if w == "enum":
                places[names[0]].append(f"{short} {words[i + 1]}")
            if w in ("while", "loop"):
                places[names[3]].append(short)
            if w == "for" and words[i + 2 : i + 4] == ["in", "0"]:
                places[names[4]].append(short)
            if w == "match" and re.fullmatch(r"[a-z_]+", words[i + 1]) and words[i + 2] == "{" and re.fullmatch(r"\d+", words[i + 3]):
                places[names[9]].append(short)
        for m in FUNCTION.finditer(text):
            name, args, result = m.group(1), parameters(m.group(2)), (m.group(3) or "").strip()
            comment = re.findall(r"(?:^[ \t]*(?://|#)[^\n]*\n)+(?=[^\n]*$)", text[: m.start()] + "x", re.M)
            comment = comment[-1] if comment and text[: m.start()].rstrip().endswith(comment[-1].rstrip()) else ""
            place = f"{short} {name}"
            if result in ("usize", "u64", "f64") and re.search(r"\belse n\b|where there (is|was) none|\bnone\b", comment):
                places[names[1]].append(place)
            for a in range(len(args)):
                for b in range(a + 1, len(args)):
                    if "self" not in args[a]:
                        pairs[(args[a], args[b])].append(place)
            if sum("[" in p and "&" in p for p in args) >= 2:
                places[names[7]].append(place)
            if result == "usize" and any("[u8" in p and "&mut" in p for p in args):
                places[names[6 + 2]].append(place)
            body = text[m.end():]
            opened = re.search(r"^\{|\n[ \t]*\{\n", body)
            if not opened:
                continue
            depth, end = 0, 0
            for j, c in enumerate(body[opened.start():]):
                depth += (c == "{") - (c == "}")
                if c == "}" and depth == 0:
                    end = opened.start() + j
                    break
            inner = tokens(body[opened.end():end])
            shape = tuple("x" if re.fullmatch(r"\w+", w) and w not in ("if", "else", "for", "in", "match", "return", "let", "mut") else w for w in inner)
            if len(shape) >= 8:
                bodies[shape].append(place)
            if len(inner) <= 40 and (inner[:1] == ["match"] or inner[:2] == ["matches", "!"] or ("==" in inner and ";" not in inner)):
                places[names[5]].append(place)
    places[names[2]] = [" = ".join(v) for v in bodies.values() if len(v) > 1]
    places[names[6]] = [f"{a} | {b}: {len(set(v))}" for (a, b), v in pairs.items() if len(set(v)) >= 3]
    for name, found in places.items():
        print(f"{name}: {len(found)}")
        if "--list" in sys.argv:
            for f in found:
                print("   ", f)


if __name__ == "__main__":
    main()
