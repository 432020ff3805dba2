#!/usr/bin/env python3
"""Brings the repository's own names in specs/ and proofs/ to the spelling of today's Rattle.

usage: tools/respell.py            at the top of the repository, once, after the toolchain's port script

Words (functions, lemmas, fields, aliases, constructors that began with a small letter) become snake case; types, facts and
modules keep their capitals. A dash stays only between two names: where both sides of it are definitions of the repository or
words of the library (length-append); else it becomes an underscore. Names that the checker makes (goals, and the steps behind
a dot) are left alone, and so is a name that a file imports from elsewhere. Where a new name would fall together with another
one, nothing is renamed and the name is printed.
"""
import collections
import os
import re
import sys

ROOT = os.path.dirname(os.path.dirname(os.path.realpath(__file__)))
TOKEN = re.compile(r"[^\s(){}\[\];,.:|=\"`←]+")
SIGNATURE = re.compile(r"^(\s*)((?:abbrev |unfoldable |pub )*)([^\s(){}:,;\[\]|=\"]+(?: [^\s(){}:,;\[\]|=\"]+)*) :(?= |$)")
USE = re.compile(r"\buse ([A-Za-z_][\w.]*?)\.\{([^}]*)\}", re.S)
MADE = re.compile(r"^(loop|returns|overflow|bounds|invariant|decreases|offset|slice|nonzero|prove|ghost|ghosts)-|-(requires|preserved|init|smaller)(-|$)")
# where two names would fall together: the lemma on a word gets _lem
FIXED = {
    "by-moments": "by_moments_lem",
    "certificate-items": "certificate_items_lem",
    "certificate-of": "certificate_of_lem",
    "in-form": "is_in_form",
    "in-slot": "in_slot_lem",
    "move-at": "move_at_lem",
    "move_in": "move_in_lem",
    "name-at": "name_at_lem",
    "of-thread": "of_thread_lem",
    "on_row": "on_row_lem",
    "order-law": "order_law_lem",
    "record-text": "record_text_lem",
    "refused-by": "refused_by_lem",
    "report-text": "report_text_lem",
    "rest-of": "rest_of_lem",
    "run-items": "run_items_lem",
    "run-laws": "run_laws_lem",
    "to-certificate": "to_certificate_lem",
    "to-run": "to_run_lem",
    "with-ticket": "with_ticket_lem",
    "with_none": "with_none_lem",
}
# the field of the worked answers that is spelled as that lemma was
FIELD = {("agreement/specs/Worked.antt", "to-certificate"): "to_certificate", ("agreement/proofs/executions_convert/Answers.antt", "to-certificate"): "to_certificate"}
# the library's words that lemmas of ours are named after
WORDS = set("length append map take drop set filter reverse replicate sum join codes cond decimal some_none".split())


def files():
    for folder, dirs, names in os.walk(os.path.join(ROOT, "crates")):
        dirs[:] = sorted(d for d in dirs if d not in ("out", "data"))
        for name in sorted(names):
            if name.endswith((".antt", ".rt", ".edit")):
                yield os.path.join(folder, name)


def snake(word):
    word = re.sub(r"([a-z0-9])([A-Z])", r"\1_\2", word)
    return word.lower() if not re.search(r"[^\x00-\x7f]", word) else re.sub(r"[A-Z]", lambda m: m[0].lower(), word)


def read(path):
    with open(path, encoding="utf-8", newline="") as f:
        return f.read()


def declared(texts, own):
    """Names that are declared, those of them that are fields, and aliases."""
    names, fields = set(), set()
    for path, text in texts.items():
        for m in USE.finditer(text):
            for item in m[2].split(","):
                alias = re.search(r" as (\S+)$", item.strip())
                if alias:
                    names.add(alias[1])
        if not path.endswith(".antt"):
            continue
        inside = None
        for line in text.splitlines():
            head = re.match(r"^(\s*)(?:pub )?(data|record) (\S+) ?.* where", line)
            if head:
                inside = (head[2], len(head[1]))
                continue
            m = SIGNATURE.match(line)
            if line.strip().startswith(("--", "use ", "pub use ", "let ", "in ")) or not m:
                continue
            if inside and len(m[1]) <= inside[1]:
                inside = None
            if re.search(r": goal\.", line):
                continue
            for name in m[3].split(" "):
                names.add(name)
                if inside and inside[0] == "record":
                    fields.add(name)
        for m in re.finditer(r"\blet ([a-z][\w'-]*) [:=]", text):
            names.add(m[1])
        for m in re.finditer(r"[(λ{] ?((?:[a-z][\w'-]* )+):", text):
            names.update(m[1].split())
    return names, fields


def renamed(name, known):
    if MADE.search(name):
        return name
    parts = name.split("-")
    out = snake(parts[0]) if parts[0][:1].islower() else parts[0]
    for before, part in zip(parts, parts[1:]):
        new = snake(part) if part[:1].islower() else part
        out += ("-" if before in known and part in known else "_") + new
    return out


def main():
    texts = {path: read(path) for path in files()}
    own = set(os.listdir(os.path.join(ROOT, "crates")))
    names, fields = declared(texts, own)
    known = {n for n in names if "-" not in n and len(n) > 2} | WORDS
    table = {}
    for name in sorted(names):
        if name in FIXED:
            table[name] = FIXED[name]
        elif "-" in name or (name[:1].islower() and re.search(r"[a-z0-9][A-Z]", name)):
            new = snake(name).replace("-", "_") if name in fields and not MADE.search(name) else renamed(name, known)
            if new != name:
                table[name] = new
    # names that fall together
    tokens = {path: set(TOKEN.findall(text)) for path, text in texts.items() if path.endswith(".antt")}
    users = collections.defaultdict(set)
    for path, found in tokens.items():
        for token in found:
            users[token].add(path)
    kept = {path: {item for m in USE.finditer(texts[path]) for item in re.split(r",\s*", m[2])} for path in tokens}
    bad = {old for old, new in table.items() if (new in names and new not in table) or any(new in kept[p] for p in users[old] if new not in table)}
    again = collections.Counter(table.values())
    bad |= {old for old, new in table.items() if again[new] > 1}
    for old in sorted(bad):
        print(f"left as it is, since {table[old]} is another name: {old}")
        del table[old]
    changed = 0
    for path, text in texts.items():
        foreign = set()
        for m in USE.finditer(text):
            parts = m[1].split(".")
            if not (parts[0] == "Rattle" and len(parts) > 1 and parts[1] in own):
                foreign |= {item.strip().split(" as ")[0] for item in m[2].split(",")}

        def turn(m):
            token, at = m[0], m.start()
            if (path[len(ROOT) + 8:], token) in FIELD:
                return FIELD[(path[len(ROOT) + 8:], token)]
            if token not in table or token in foreign:
                return token
            if at and text[at - 1] == "." and re.search(r"[\w')]\.$", text[max(0, at - 2):at]) and token not in fields:
                line = text[text.rfind("\n", 0, at) + 1:at]
                if not re.match(r"\s*(ghost )?(pub )?use ", line):
                    return token
            return table[token]

        new = TOKEN.sub(turn, text)
        if new != text:
            changed += 1
            with open(path, "w", encoding="utf-8", newline="") as f:
                f.write(new)
    pages = [os.path.join(ROOT, "README.md")] + [os.path.join(ROOT, "docs", p) for p in sorted(os.listdir(os.path.join(ROOT, "docs"))) if p.endswith(".md")]
    for path in pages:
        text = read(path)
        new = TOKEN.sub(lambda m: table.get(m[0], m[0]) if re.search(r"[a-z0-9][A-Z]", m[0]) else m[0], text)
        new = re.sub(r"`([^`\s]+)`", lambda m: "`" + table.get(m[1], m[1]) + "`", new)
        if new != text:
            changed += 1
            with open(path, "w", encoding="utf-8", newline="") as f:
                f.write(new)
    print(f"{len(table)} names respelled in {changed} files")
    with open("/tmp/respelled.txt", "w") as f:
        f.writelines(f"{a} {b}\n" for a, b in sorted(table.items()))


if __name__ == "__main__":
    sys.exit(main())
