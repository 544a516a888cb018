#!/usr/bin/env python3
"""Lists the places of docs/DESIGN-PASS.md, a heading for each of its points: python3 tools/count_forms.py [--list] [FOLDER].

It reads crates/*/src/*.rt (proofs for point 8) below FOLDER, here by default, and goes by text: the page says which of the places are to change.
"""
import re
import sys
from pathlib import Path

# Functions that only compare, convert, choose or name a value, by their names.
SHORT = (r"same\w*|less|wide\d*|lower|exact|number|whole|larger|later|least|both|either|one_if|one_more|is_admitted|is_overflow|is_over_share|"
         r"is_finite|is_max|is_fresh|of_dims|words_of|unit_of|as_u64|bits_of|double_of|infinity|since|digit|words|tagged|floats|numbers|whole_parts|"
         r"parts|causes|pick|dim_at|dim_of|cause_of|index_of|side_of|answer_of|\w+_number|\w+_code")
LENT = ("tags", "slots", "offsets", "free", "units", "uses", "counts", "sums", "counted")


def functions(text):
    for found in re.finditer(r"^( *)(?:pub )?(?:extern \"C\" )?fn (\w+)(?:<[^(]*>)?\(([^{]*?)\)(?: -> ([^{\n]*))?", text, re.M):
        yield text.count("\n", 0, found.start()) + 1, found.group(2), found.group(3), (found.group(4) or "").strip()


def main():
    args = [a for a in sys.argv[1:] if a != "--list"]
    top = Path(args[0] if args else Path(__file__).parent.parent)
    places = {k: [] for k in ("1 enums", "1 sentinels", "1 kinds as numbers", "3 counted loops", "4 written by hand", "5 lent slices together",
                              "5 clauses repeated", "6 buffer and place", "7 switches on a number")}
    for path in sorted(top.glob("crates/*/src/*.rt")):
        text = path.read_text()
        where = f"{path.parent.parent.name}/{path.name}"
        for no, line in enumerate(text.split("\n"), 1):
            code = line.split("//")[0]
            if re.search(r"\benum \w+", code):
                places["1 enums"].append(f"{where}:{no} {code.strip(' {')}")
            if "//" in line and re.search(r"else n\b|else 0\b|n where there is none|0 where|0 for none|\(0: none\)|of a byte that is none|DIMS where none|, 0 while|which is none", line):
                places["1 sentinels"].append(f"{where}:{no} {line.strip()}")
            if re.search(r"\b(kind|which|call|letter|no|number|row\[0\]|[xy]\[0\]) (==|!=) [0-9]", code) or re.search(r"match (call|which|kind|letter\b|\w*::letter|j\b)", code):
                places["1 kinds as numbers"].append(f"{where}:{no} {code.strip()}")
            if re.match(r"\s*(while|loop)\b", code):
                places["3 counted loops"].append(f"{where}:{no} {code.strip()}")
            if re.search(r"match (call|which|kind|letter\b|\w*::letter|\w+ % \d+)", code) or re.search(r"\b(which|call) == [0-9]", code):
                places["7 switches on a number"].append(f"{where}:{no} {code.strip()}")
        for no, name, params, result in functions(text):
            lent = [p for p in LENT if re.search(rf"\b{p}: &", params)]
            if len(lent) >= 2:
                places["5 lent slices together"].append(f"{where}:{no} {name}: {' '.join(lent)}")
            if re.fullmatch(SHORT, name):
                places["4 written by hand"].append(f"{where}:{no} {name}")
            if re.search(r"\bout: &mut", params) and re.search(r"\bat: usize|-> usize", f"{params} -> {result}") or re.search(r"\bline: &mut \[u8; LINE\]", params):
                places["6 buffer and place"].append(f"{where}:{no} {name}")
    for line in re.findall(r"requires (?:\w+_in_bounds\w*|units_len|uses_len|name_value|i_value|from_le_n|tracked\w*) \{([^}]*)\}", "\n".join(
            p.read_text() for p in top.glob("crates/*/src/*.rt"))):
        places["5 clauses repeated"].append(line.strip())
    for name, found in places.items():
        print(f"{name}: {len(found)}")
        if "--list" in sys.argv:
            for place in found:
                print(f"    {place}")
    answers = sum(len(re.findall(r"^(?:pub )?[a-z][\w-]* :", p.read_text(), re.M)) for p in top.glob("crates/*/proofs/**/Answers.antt"))
    files = len(list(top.glob("crates/*/proofs/**/Answers.antt")))
    lemmas = sum(len(re.findall(r"^(?:abbrev |unfoldable )?(?:pub )?[a-zA-Z][\w'-]* :", p.read_text(), re.M)) for p in top.glob("crates/*/proofs/*.antt"))
    print(f"8 answers: {answers} in {files} files; lemmas in proofs/*.antt: {lemmas}")


if __name__ == "__main__":
    main()
