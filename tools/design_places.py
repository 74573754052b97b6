#!/usr/bin/env python3
"""Counts the places of docs/DESIGN-PASS.md in crates/*/src of a commit: tools/design_places.py [COMMIT] [-l], -l with each place.

Points 1, 3, 4, 6 and 7 are lines that match a pattern; 2 functions of one shape; 5 functions of many parameters and clauses that three
or more functions repeat; 8 the lines of functions' proofs."""
import collections
import re
import subprocess
import sys

words = [w for w in sys.argv[1:] if w != "-l"]
commit, listed = (words or ["HEAD"])[0], "-l" in sys.argv


def git(*args):
    return subprocess.run(["git", *args], capture_output=True, text=True, check=True).stdout


def files(pattern):
    return [p for p in git("ls-tree", "-r", "--name-only", commit, "crates").splitlines() if re.search(pattern, p)]


def code(path):
    return [re.sub(r"(^|\s)//.*", "", line) for line in git("show", f"{commit}:{path}").split("\n")]


sources = {path: code(path) for path in files(r"/src/.*\.rt$")}
LINES = {
    "1 a refusal's or kind's number, or a flag, as a field": r"^\s+(pub )?(refusal|form|sign|kind): (u8|u16|bool),",
    "1 a test of a refusal's number": r"(refusal|form) [!=]= 0|!\w+\.form\b|\.sign == 2",
    "1 a refusal's number made": r"return (\d|1\d|2[01]);|refused\(\d|refusal: (\d+|if)|^    0$",
    "3 a loop that counts by hand": r"^\s*while ",
    "3 a for loop over indices": r"^\s*for \w+ in 0\.\.",
    "4 a choice of the larger or smaller": r"if (\w+) < (\w+) \{ (\1|\2) \} else \{ (\1|\2) \}",
    "4 bytes of a number, or a sign, by hand": r"[%/] 256\b|256 \*|65536 \*|-1 - |if \w+(\.\w+\(\))? \{ [12] \} else \{ [01] \}",
    "4 equality, order or copying by hand": r"fn (same_bytes|same|comes_before|shares|is_digit|clear|store_values|start_values)\b|return (true|false);",
    "4 printing by hand": r"fn write_number<",
    "6 a count beside a fixed array": r"^\s+(pub )?(count|m|kept|entries): usize,",
    "6 parallel arrays": r"(keys|firsts|seconds|scores): (&mut |&)?\[",
    "7 a parameter that says which step to run": r"\b(assigned|call): (bool|u8)\b",
}


def functions():
    for path, lines in sources.items():
        text = "\n".join(lines).split("#[cfg(test)]")[0]
        for m in re.finditer(r"^[ ]*(?:pub(?:\(crate\))? )?(?:extern \"C\" )?fn (\w+)(.*?)\n[ ]*\{\n(.*?)\n\s*\}$", text, re.M | re.S):
            yield path, m.group(1), m.group(2), m.group(3)


def shape(body):
    tokens = re.findall(r"\w+|[^\w\s]", body)
    keep = {"if", "else", "for", "in", "while", "return", "let", "mut", "as", "match", "self"}
    return " ".join(t if t in keep or not re.match(r"\w", t) else "w" for t in tokens if t not in "()")


# Crates whose numbers 0 to 21 are no refusals: lengths of texts, digits, widths, bytes.
OTHER_NUMBERS = r"_text/|_output/|/(digits|board_\w+|elimination_\w+|market_forms|verilog_lines)/"

counts = {}
for name, pattern in LINES.items():
    hits = [(path, i + 1, line.strip()) for path, lines in sources.items() for i, line in enumerate(lines) if re.search(pattern, line)]
    if name == "1 a refusal's number made":
        hits = [hit for hit in hits if not re.search(OTHER_NUMBERS, hit[0])]
    counts[name] = hits
same = collections.defaultdict(list)
for path, name, head, body in functions():
    if "match" not in body and len(shape(body).split()) >= 3:
        same[shape(body)].append((path, 0, name))
groups = [g for g in same.values() if len(g) > 1]
counts["2 functions with the shape of another"] = [x for g in groups for x in g]
counts["2 functions that make an array of one value"] = [
    (p, 0, n) for p, n, h, b in functions() if re.fullmatch(r"\s*\[[\w ]+; \w+\]", b)]
counts["5 functions of seven or more parameters"] = [
    (p, 0, n) for p, n, h, b in functions() if h.split("->")[0].split("requires")[0].split("ensures")[0].count(": ") >= 7]
clauses = collections.defaultdict(list)
for path, name, head, body in functions():
    for clause in re.findall(r"requires [^{]*\{(.*)\}$", head, re.M):
        for part in re.split(r" × ", clause):
            clauses[part.strip(" ()")].append((path, 0, name))
counts["5 a clause's part that three or more functions require"] = [
    (w[0][0], 0, part + f" ({len(w)})") for part, w in clauses.items() if len(w) >= 3]
proofs = files(r"/proofs/.*/(Answers|Invariants)\.antt$")
for name in sorted(counts):
    print(f"{len(counts[name]):5}  {name}")
    if listed:
        for path, line, text in counts[name]:
            print(f"         {path}:{line}: {text}")
print(f"{sum(len(git('show', f'{commit}:{p}').splitlines()) for p in proofs):5}  8 lines of answers and invariants, in {len(proofs)} files")
