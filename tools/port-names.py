#!/usr/bin/env python3
"""Brings the project's own definitions and lemmas to the spelling of today's Rattle: words in snake case.

usage: tools/port-names.py            renames, in place, in crates/ (run once, after port.py of the kit)
       tools/port-names.py --list     prints each old name with its new one, and changes nothing

A name is taken if a file of specs/ or a file of lemmas in proofs/ declares it (a definition, a lemma, or a field of a
record) and it has a capital after a small letter or digit while it begins with a small one, or a hyphen. Names that a
library has too stay as they are: the same word would mean two things. Functions of src/, exported C names, strings,
inputs and outputs keep their names, and so do types and modules.
"""

import glob
import os
import re
import sys

TOKEN = re.compile(r"[A-Za-z_][A-Za-z0-9_'₀-₉]*(?:-[A-Za-z0-9_'₀-₉]+)*")
DECLARES = re.compile(
    r"^\s*(?:abbrev\s+|unfoldable\s+)?(?:pub\s+)?((?:[A-Za-z_][^\s(){}:;,]*\s+)+)(?:[({].*)?:\s"
)
WORDS = {"let", "record", "data", "module", "where", "use", "in", "do", "abbrev", "unfoldable", "pub", "mod", "elim"}
# New names that another thing of the same file bears already, or that a library has.
BY_HAND = {
    "authenticated-count": "authenticated_count_law",
    "ciphertextAt": "ciphertext_at_of",
    "encrypted-count": "encrypted_count_law",
    "hasSeal": "has_seal_of",
    "innerCount": "inner_count_of",
    "untrusted-count": "untrusted_count_law",
    "used-outer": "used_outer_law",
    "usedInner": "used_inner_of",
    "wireLengths": "wire_lengths_of",
    "a-header": "a_header_law",
    "are-bytes": "are_bytes_law",
    "as-identifier": "as_identifier_law",
    "cookie-by": "cookie_by_law",
    "decoded-each": "decoded_each_law",
    "end-of": "end_of_law",
    "entries-of": "entries_of_law",
    "field-bytes": "field_bytes_law",
    "hasCookie": "has_cookie_of",
    "inOrder": "in_order_of",
    "inner-messages": "inner_messages_law",
    "inner-record": "inner_record_law",
    "inner-table": "inner_table_law",
    "is-mac": "is_mac_law",
    "is-named": "is_named_law",
    "leap-turned": "leap_turned_law",
    "marker-record": "marker_record_law",
    "no-seal": "no_seal_law",
    "on-outer": "on_outer_law",
    "or-refused": "or_refused_law",
    "outer-messages": "outer_messages_law",
    "outer-table": "outer_table_law",
    "owesSeal": "owes_seal_of",
    "seal-bytes": "seal_bytes_law",
    "sealed-length": "sealed_length_law",
    "tornLen": "torn_len_of",
    "used-inner": "used_inner_law",
}


def lemma_files():
    return sorted(glob.glob("crates/*/specs/**/*.antt", recursive=True) + glob.glob("crates/*/proofs/*.antt"))


def without_comment(line):
    return re.sub(r"(^|\s)--(\s.*)?$", r"\1", line)


def declared():
    names = set()
    for path in lemma_files():
        for line in open(path, encoding="utf-8"):
            match = DECLARES.match(without_comment(line.rstrip("\n")))
            if match:
                names.update(n for n in match.group(1).split() if n not in WORDS and TOKEN.fullmatch(n))
    return names


def of_libraries():
    """The names that our files bring in from a module that isn't ours."""
    own = {os.path.basename(os.path.dirname(p)) for p in glob.glob("crates/*/")}
    names = set()
    for path in glob.glob("crates/**/*.antt", recursive=True) + glob.glob("crates/*/src/**/*.rt", recursive=True):
        for module, items in re.findall(r"^\s*(?:ghost )?use ([\w.]+)\.\{([^}]*)\}", open(path, encoding="utf-8").read(), re.M):
            parts = module.split(".")
            if not (parts[0] == "Rattle" and len(parts) > 1 and parts[1] in own):
                names.update(TOKEN.findall(items))
    return names


def snake(name):
    return re.sub(r"(?<=[a-z0-9])(?=[A-Z])", "_", name).replace("-", "_").lower()


def renamed():
    taken = of_libraries()
    new = {}
    for name in declared():
        if name in taken:
            continue
        if "-" in name or (name[0].islower() and re.search(r"[a-z0-9][A-Z]", name)):
            new[name] = BY_HAND.get(name, snake(name))
    return new


def in_antt(text, new):
    def line(l):
        m = re.search(r"(^|\s)--(\s|$)", l)
        code, rest = (l, "") if not m else (l[: m.start()], l[m.start() :])
        code = TOKEN.sub(lambda t: new.get(t.group(), t.group()), code)
        rest = TOKEN.sub(lambda t: new.get(t.group(), t.group()) if "-" not in t.group() else t.group(), rest)
        return code + rest

    return "\n".join(line(l) for l in text.split("\n"))


def in_rt(text, new):
    """Only in the clauses and in the lines that import for them. Names without a hyphen in comments too."""

    def clause(match):
        return TOKEN.sub(lambda t: new.get(t.group(), t.group()), match.group())

    text = re.sub(r"^ghost use [^;]*;", clause, text, flags=re.M)
    text = re.sub(r"^\s*(?:requires|ensures|ghost)\*?(?: \w+)? \{(?:[^{}]|\{[^{}]*\})*\}", clause, text, flags=re.M)
    plain = {a: b for a, b in new.items() if "-" not in a}
    return re.sub(r"//.*", lambda c: TOKEN.sub(lambda t: plain.get(t.group(), t.group()), c.group()), text)


def in_edit(text, new):
    spec = ".antt" in text.split("\n")[0] or "file: specs" in text or "file: proofs" in text
    out = []
    for l in text.split("\n"):
        clause = re.match(r"(old|new): .*(requires|ensures|ghost use)", l)
        if re.match(r"(old|new):", l) and (spec or clause):
            l = TOKEN.sub(lambda t: new.get(t.group(), t.group()), l)
        out.append(l)
    return "\n".join(out)


def main():
    os.chdir(os.path.join(os.path.dirname(os.path.abspath(__file__)), ".."))
    new = renamed()
    if "--list" in sys.argv:
        for a in sorted(new):
            print(a, new[a])
        return 0
    for path in sorted(glob.glob("crates/**/*", recursive=True)):
        turn = in_antt if path.endswith(".antt") else in_rt if path.endswith(".rt") else in_edit if path.endswith(".edit") else None
        if turn and "/out/" not in path:
            text = open(path, encoding="utf-8").read()
            turned = turn(text, new)
            if turned != text:
                open(path, "w", encoding="utf-8").write(turned)
    return 0


if __name__ == "__main__":
    raise SystemExit(main())
