#!/usr/bin/env python3
"""Gives the goals and steps that proof files name the spelling of names that Rattle makes now: names of src/ keep their underscores.

usage: tools/mend_names.py ROOT [CRATE..]
"""

import os
import re
import sys

DELIM = r"\s(){}\[\].,;@\"«»⌜⌝"
TOKEN = re.compile(rf"[^{DELIM}]+")
STD = """copy_from_slice as_mut_slice as_slice as_bytes as_str extend_from_slice ok_or from_str is_empty is_some is_none split_at
push_str to_string map_err unwrap_or starts_with ends_with try_from from_le_bytes to_le_bytes wrapping_add wrapping_sub
write_all read_to_end read_line as_ref as_mut get_mut first_mut last_mut trim_end trim_start is_ascii_digit split_first
split_last chunks_exact to_be_bytes from_be_bytes rotate_left eq_ignore_ascii_case from_utf8 write_fmt copy_within into_iter
iter_mut split_whitespace strip_prefix strip_suffix from_slice is_ok is_err ok_or_else unwrap_or_default""".split()
WORDS = """in_ok in_err in_default invariant_of overflow_add overflow_sub overflow_mul overflow_shl overflow_shr overflow_cast
overflow_step nonzero_div nonzero_rem slice_bounds offset_bounds type_inv""".split()


def main():
    root = sys.argv[1]
    crates = sys.argv[2:] or sorted(os.listdir(os.path.join(root, "crates")))
    for crate in crates:
        top = os.path.join(root, "crates", crate)
        idents = set(STD)
        for folder, dirs, names in os.walk(os.path.join(top, "src")):
            for n in names:
                idents |= {w for w in re.findall(r"\w+", open(os.path.join(folder, n)).read()) if "_" in w.strip("_")}
        turns = sorted(((w.replace("_", "-"), w) for w in idents | set(WORDS)), key=lambda p: -len(p[0]))
        one = re.compile(r"(?<![\w])(" + "|".join(re.escape(a) for a, _ in turns) + r")(?![\w])")
        to = dict(turns)

        def respell(name):
            return one.sub(lambda m: to[m.group(1)], name)

        for folder, dirs, names in os.walk(os.path.join(top, "proofs")):
            for n in names:
                if n not in ("Answers.antt", "Invariants.antt", "Proof.antt"):
                    continue
                p = os.path.join(folder, n)
                t = open(p).read()
                goals = set(re.findall(r"goal\.([^\s]+)", t))
                for m in re.finditer(r"proofs\.[^\s{]*(?:Goals|Given)\.\{([^}]*)\}", t):
                    goals |= {w.strip() for w in m.group(1).split(",")}
                new = TOKEN.sub(lambda m: respell(m.group(0)) if m.group(0) in goals or (m.start() and t[m.start() - 1] == ".") else m.group(0), t)
                if new != t:
                    open(p, "w").write(new)


main()
