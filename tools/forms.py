#!/usr/bin/env python3
"""Counts, in the crates' src/, the places that docs/DESIGN-PASS.md goes through. `forms.py` prints the counts, `forms.py --list` the lines too,
`forms.py --at COMMIT` those of that commit."""

import re
import subprocess
import sys

# A row of the table: its point, what is looked for, and the expression that finds it in a line.
FORMS = [
    (1, "enums", r"^(pub )?enum "),
    (1, "functions that answer a refusal's number", r"refusal.rt.*fn of_\w+\(.*-> u32|fn (of_times|turned_away)\(.*-> u32"),
    (1, "numbers of refusals", r"return [1-9][0-9]?;|refusal: [1-9]|[Rr]efused(_with)?\([1-9]"),
    (1, "tests whether a number is a refusal", r"if (bad|late|steep|outside|unread|\w+\.refusal) > 0"),
    (1, "fields for a refusal, an end or a mark", r"^ +pub (refusal|end|mark): u32"),
    (1, "numbers for kinds", r"\b(table|kind): (u32|usize)|match \w+ % \d+ \{"),
    (3, "`while` and `loop`", r"\bwhile\b|\bloop \{"),
    (3, "indices counted by hand", r"^ +(k|v|taken|done) \+= |^ +v = next;"),
    (4, "conversions and comparisons by hand", r"fn (wide|from_word|at_most|gradient_of|train_of|inertia_of|coefficients_of|bits|per_mille|byte_at|since|above|positive)\("),
    (4, "numbers printed one by one", r"(text::|^ +)(field|short_field|flag|signed|gradient|short_gradient|print_field)\((out|rt)"),
    (4, "fields written as `x: x`", r"^ +(\w+): \1,$"),
    (5, "requires of an accepted sheet", r"requires .*accepted \w+\.now ≡ true"),
    (5, "requires of a small course or plan", r"requires .*Small "),
    (5, "requires of speeds that are near", r"requires .*Near "),
    (5, "tm and tr side by side", r"\btm(: \w+)?, tr\b"),
    (5, "a train beside its coefficients", r"k(: Coefficients)?, train\b"),
    (5, "the writer's lists side by side", r"gradients(: &\[i16\])?, (places|overlaps)\b"),
    (6, "arrays of numbers", r"^(pub )?(const|static) \w+: \[[ui]\d+; \d+\]"),
    (7, "switches on which function to run", r"match table|^ +\d+ => \w+::\w+\(out"),
]


def lines(commit):
    """Each line of each crate's source, with its place."""
    if commit:
        names = subprocess.run(["git", "ls-tree", "-r", "--name-only", commit, "crates"], capture_output=True, text=True, check=True).stdout.split()
    else:
        names = subprocess.run(["git", "ls-files", "crates"], capture_output=True, text=True, check=True).stdout.split()
    for name in names:
        if re.fullmatch(r"crates/\w+/src/.*\.rt", name):
            if commit:
                text = subprocess.run(["git", "show", f"{commit}:{name}"], capture_output=True, text=True, check=True).stdout
            else:
                text = open(name, encoding="utf-8").read()
            for number, line in enumerate(text.split("\n"), 1):
                if not line.lstrip().startswith("//"):
                    yield f"{name}:{number}", line


def main():
    commit = sys.argv[sys.argv.index("--at") + 1] if "--at" in sys.argv else None
    source = list(lines(commit))
    for point, what, form in FORMS:
        found = [(place, line) for place, line in source if re.search(form, line) or re.search(form, f"{place}: {line}")]
        print(f"{point}  {len(found):4}  {what}")
        if "--list" in sys.argv:
            for place, line in found:
                print(f"         {place}: {line.strip()}")


main()
