#!/usr/bin/env python3
"""Brings the names of goals and steps in proofs/F/ to the spelling that the checker makes today.

usage: tools/regoal.py [CRATE ..]      at the top of the repository, after the toolchain's port script

A name from the source keeps its underscores where an older checker wrote dashes (is-capital: is_capital), and a word of the
checker's own is snake case (overflow-add: overflow_add, in-err: in_err). Only goals, the steps behind a dot, and what is
imported from Goals and Given are turned.
"""
import os
import re
import sys

ROOT = os.path.dirname(os.path.dirname(os.path.realpath(__file__)))
LIBRARY = """copy_from_slice as_slice as_str is_empty is_none is_some is_ok is_err is_ascii_digit is_among clone_from min_room split_at
split_first split_once saturating_sub checked_add wrapping_add from_utf8 to_vec iter_mut get_mut swap_remove push_str index_mut
deref_mut as_bytes is_char_boundary rotate_left rotate_right copy_within fill_with trailing_zeros unwrap_or read_to_end write_all
from_fn from_raw from_residual""".split()
WORDS = ["overflow-add", "overflow-sub", "overflow-mul", "overflow-cast", "overflow-step", "overflow-neg", "overflow-shl",
         "overflow-shr", "nonzero-div", "nonzero-rem", "slice-bounds", "offset-bounds", "invariant-of", "in-err", "in-ok",
         "in-default", "type-inv"]


def read(path):
    with open(path, encoding="utf-8") as f:
        return f.read()


def identifiers():
    """The names of the source that have an underscore, and those of the library that steps are named after."""
    names = set(LIBRARY)
    for folder, dirs, files in os.walk(os.path.join(ROOT, "crates")):
        dirs[:] = [d for d in dirs if d != "out"]
        for name in files:
            if name.endswith(".rt"):
                names |= set(re.findall(r"\b[a-z][a-z0-9]*(?:_[a-z0-9]+)+\b", read(os.path.join(folder, name))))
    return names


def joined(token, names):
    for word in WORDS:
        token = re.sub(r"(?<![\w])" + word + r"(?![a-z_])", word.replace("-", "_"), token)
    parts = token.split("-")
    out, i = [], 0
    while i < len(parts):
        for j in range(len(parts), i + 1, -1):
            word = "_".join(parts[i:j])
            if word in names:
                out.append(word)
                i = j
                break
        else:
            out.append(parts[i])
            i += 1
    return "-".join(out)


def turn(path, names):
    text = read(path)
    own = set(re.findall(r"^(?:pub |abbrev )*([^\s:]+) :", text, re.M)) - set(re.findall(r": goal\.([^\s]+)", text))
    goals = set(re.findall(r"goal\.([^\s(){}\[\];,]+)", text))
    imported = set()
    for m in re.finditer(r"use Rattle\.\w+\.proofs\.[\w.+]+\.(?:Goals|Given)\.\{([^}]*)\}", text):
        imported |= {item.strip().split(" as ")[0] for item in m[1].split(",")}

    def new(m):
        token, at = m[0], m.start()
        if "-" not in token or token in own:
            return token
        behind = at and text[at - 1] == "."
        if behind or token in goals or token in imported:
            # each way into a join is joined by +
            return "+".join(joined(part, names) for part in token.split("+"))
        return token

    text2 = re.sub(r"[^\s(){}\[\];,.:|=\"`←]+", new, text)
    if text2 != text:
        with open(path, "w", encoding="utf-8") as f:
            f.write(text2)
        return True
    return False


def main():
    crates = sys.argv[1:] or sorted(os.listdir(os.path.join(ROOT, "crates")))
    names = identifiers()
    n = 0
    for crate in crates:
        for folder, dirs, files in os.walk(os.path.join(ROOT, "crates", crate, "proofs")):
            for name in files:
                if name in ("Answers.antt", "Invariants.antt", "Proof.antt"):
                    n += turn(os.path.join(folder, name), names)
    print(f"{n} files turned")


if __name__ == "__main__":
    main()
