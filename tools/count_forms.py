#!/usr/bin/env python3
"""Counts the places in src/ where an older form of the language may stand, by the points of docs/DESIGN-PASS.md.

    python3 tools/count_forms.py [COMMIT] [--places]

Without a commit it reads the working tree. --places prints each place after its count. A pattern finds candidates; which of
them are places, docs/DESIGN-PASS.md says."""
import re
import subprocess
import sys
from collections import Counter

# Of each point: what is looked for, and the pattern of a line that holds it.
PATTERNS = [
    ("1a own enums", r"^\s*(pub(\(crate\))? )?enum \w+"),
    ("1b a number written for a case", r"::\w+ => \d[\d_]*,"),
    ("1c switches in structs", r"^\s+(pub(\(crate\))? )?\w+: bool,$"),
    ("1d None, Err or Ok taken apart and given again", r"let (Some|Ok|Err)\b.*else \{|None => (None|Ok\(None\))|Err\((\w+)\) => (return )?Err\("),
    ("1e tests that answer by hand", r"^\s+return (true|false|None|0|Some\(.*\)|Ok\(.*\)|Err\(.*\));"),
    ("3a loops over a range of numbers", r"\bfor \w+ in [^{]*\.\."),
    ("3b while and loop", r"^\s*('\w+: )?(while|loop)\b"),
    ("4a functions that convert, compare or print by hand", r"fn (\w*_word|\w*_number|number|word|numbered|called|show\w*|tell\w*|told\w*|other|same_\w+|has_\w+|is_call|of_bytes|unnamed|noted|value_of|with_\w+)\b"),
    ("6a arrays in structs and locals with a size", r": \[[\w<>]+; \d+\]|= \[\w+; \d+\]"),
    ("6b lengths beside a buffer", r"\b(count|len|left|n): (usize|u16)\b"),
    ("7a matches on a step, a word or a kind", r"\bmatch (\(?self\.state\.phase|command|\*kind|word|call\b|\*self|words)"),
]


def files(commit):
    if commit:
        names = subprocess.run(["git", "ls-tree", "-r", "--name-only", commit, "crates"], capture_output=True, text=True, check=True).stdout.split()
    else:
        names = subprocess.run(["git", "ls-files", "-co", "--exclude-standard", "crates"], capture_output=True, text=True, check=True).stdout.split()
    for name in sorted(names):
        if commit:
            read = lambda name=name: subprocess.run(["git", "show", f"{commit}:{name}"], capture_output=True, text=True, check=True).stdout
        else:
            read = lambda name=name: open(name, encoding="utf-8").read()
        yield name, read


def parts(fact):
    """The facts that a nested product is made of."""
    out, deep, at = [], 0, 0
    for i, c in enumerate(fact):
        deep += (c == "(") - (c == ")")
        if c == "×" and deep == 0:
            out.append(fact[at:i])
            at = i + 1
    out.append(fact[at:])
    flat = []
    for p in (p.strip() for p in out):
        while p.startswith("(") and p.endswith(")") and balanced(p[1:-1]):
            p = p[1:-1].strip()
        flat += parts(p) if "×" in p and len(out) > 1 else [p]
    return flat


def balanced(text):
    deep = 0
    for c in text:
        deep += (c == "(") - (c == ")")
        if deep < 0:
            return False
    return deep == 0


def main():
    args = [a for a in sys.argv[1:] if not a.startswith("--")]
    places = "--places" in sys.argv
    commit = args[0] if args else None
    found = {title: [] for title, _ in PATTERNS}
    facts, twice, answers = Counter(), Counter(), 0
    for name, read in files(commit):
        if re.match(r"crates/\w+/proofs/.*Answers\.antt$", name):
            answers += 1
        if not re.match(r"crates/\w+/src/.*\.rt$", name):
            continue
        text = read()
        for i, line in enumerate(text.split("\n"), 1):
            for title, pattern in PATTERNS:
                if re.search(pattern, line) and not line.strip().startswith("//"):
                    found[title].append(f"{name}:{i}: {line.strip()}")
        crate = name.split("/")[1]
        for clause in re.findall(r"^\s*(?:requires|ensures)(?: \w+)? \{ (.*) \}$", text, flags=re.M):
            for fact in set(parts(clause)):
                if "result" not in fact and "≡" not in fact.replace("≡ 0", ""):
                    facts[(crate, fact)] += 1
        for list_ in re.findall(r"fn \w+(?:<[^>]*>)?\(([^)]*)\)", text):
            names = [p.strip() for p in re.findall(r"(\w+): [^,]+", list_)]
            types = [re.sub(r"'\w+ ", "", t.strip()) for t in re.findall(r"\w+: ([^,]+)", list_)]
            both = list(zip(names, types))
            for i in range(len(both)):
                for j in range(i + 1, len(both)):
                    twice[(crate, both[i], both[j])] += 1
    for title, _ in PATTERNS:
        print(f"{title}: {len(found[title])}")
        if places:
            print("".join(f"    {p}\n" for p in found[title]), end="")
    many = sorted((n, k) for k, n in facts.items() if n >= 3)
    print(f"5a facts that stand in three contracts of a crate or more: {len(many)}, in all {sum(n for n, _ in many)} times")
    if places:
        print("".join(f"    {n} times in {c}: {f}\n" for n, (c, f) in reversed(many)), end="")
    pairs = sorted((n, k) for k, n in twice.items() if n >= 5)
    print(f"5b pairs of parameters that five functions of a crate or more take together: {len(pairs)}")
    if places:
        print("".join(f"    {n} times in {c}: {a[0]}: {a[1]}, {b[0]}: {b[1]}\n" for n, (c, a, b) in reversed(pairs)), end="")
    print(f"8a files of answers: {answers}")


if __name__ == "__main__":
    main()
