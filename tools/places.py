#!/usr/bin/env python3
"""Counts the places that docs/DESIGN-PASS.md speaks of: usage: places.py [-l] [COMMIT]. With -l it lists them."""

import re
import subprocess
import sys

PATTERNS = [
    ("1a own enums", r"^(pub(\(crate\))? )?enum "),
    ("1b flags beside a value", r"^ +(pub(\(crate\))? )?[a-z_]+: bool,$|[(,] ?(second|there|done|digest): bool"),
    ("1c a refusal by its number", r"\) -> u32$|code: u32"),
    ("1d a number for a kind", r"(kind|kappa): u(32|64)"),
    (
        "2 twins by their names",
        r"fn [a-z_0-9]*(_u32|_u64|_f64|[248]|_four|_pair)(<[^(]*)?\(|fn four_[a-z_]*\(|struct (Two|Four|Eight|DrawnF64)",
    ),
    ("3 loops that may count by hand", r"^ +while "),
    (
        "4 what the library may have",
        r"fn (wide|mark|least|shorter|at_least_one|nearer|greater|digit|u32_at|f64_at|put_decimal|kappa_of|print_kind"
        r"|print_line|code|fit_code|abs|max|clamp|highest_number|lowest_number|dimension)[<(]",
    ),
    ("6 a buffer with a place beside it", r"out: &mut \[u8\], at: usize"),
    ("7 a switch on a number", r"if kind (==|<)"),
]
TOGETHER = [
    ("5 m, k and d", {"m", "k", "d"}),
    ("5 weights and coords", {"weights", "coords"}),
    ("5 work and work_u32", {"work", "work_u32"}),
    ("5 the six outputs", {"labels", "responsibilities", "directions", "logw"}),
]
HEAD = re.compile(r"^ *(?:pub(?:\(crate\))? )?(?:extern \"C\" )?fn (\w+)(?:<[^(]*>)?\(([^{]*?)\)(?: ->|\n| *\{)", re.M | re.S)


def git(*words):
    return subprocess.run(["git", *words], capture_output=True, text=True, check=True).stdout


def main():
    words = [w for w in sys.argv[1:] if w != "-l"]
    listed = "-l" in sys.argv
    commit = words[0] if words else "HEAD"
    names = git("ls-tree", "-r", "--name-only", commit, "crates").split()
    files = {f: git("show", f"{commit}:{f}") for f in names if re.match(r"crates/[^/]+/src/.*\.rt$", f)}
    for title, pattern in PATTERNS:
        found = [
            f"{f}:{i}:{line}"
            for f, text in files.items()
            for i, line in enumerate(text.split("\n"), 1)
            if re.search(pattern, line) and not line.lstrip().startswith("//")
        ]
        show(title, found, listed)
    for title, together in TOGETHER:
        found = [
            f"{f}:{m[1]}"
            for f, text in files.items()
            for m in HEAD.finditer(text)
            if together <= set(re.findall(r"(\w+): ", m[2]))
        ]
        show(title, found, listed)
    proofs = [f for f in names if re.match(r"crates/[^/]+/proofs/.*\.antt$", f)]
    lines = sum(git("show", f"{commit}:{f}").count("\n") for f in proofs)
    print(f"{'8 lines of proofs':40}{lines}")


def show(title, found, listed):
    print(f"{title:40}{len(found)}")
    if listed:
        for line in found:
            print("    " + line)


main()
