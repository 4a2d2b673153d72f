#!/usr/bin/env python3
"""Spells the definitions and lemmas of specs/ and proofs/ as today's Rattle does: words in snake case, a dash where it joins two names.

usage: tools/respell.py [--list]

Run once, at the top of the repository. It reads which names the .antt files declare, and writes the new spelling in .antt files, in the
clauses of .rt files, in must-fail edits and in the documents. Functions, types, constants and strings of src/ keep their names.
--list prints the old and the new names, and writes nothing.
"""
import glob
import re
import sys

DECLARED = re.compile(r"^\s*(?:(?:abbrev|unfoldable|pub|ruleset) )*([^\s(){}.;,@\"«»:]+)(?: \{[^{}\n]*\})* : ?(.*)$")
ANSWER = re.compile(r"tie\.|\{M : Type 1\} → statement")
WORD = re.compile(r"[^\s(){}\[\].;,@\"«»`|/:\\…“”]+")
HUMP = re.compile(r"(?<=[a-z0-9])([A-Z])")
# Names of std that a dash may join, beside the definitions declared here.
NAMES = set("length take drop append set map replicate get_or add sub mul div mod pow min max nil cons zero suc one and or not eq leb ltb eqb cond shr shl".split())
# A word that would be spelled like a field, a module or a constant of src/: it says besides what it is.
OTHERWISE = {
    "classOfMs": "class_of_ms_element",
    "uLocationUpdateDemand": "u_location_update_demand_type",
    "dLocationUpdateAccept": "d_location_update_accept_type",
    "dAttachDetachGroupIdentity": "d_attach_detach_group_identity_type",
    "groupIdentityUplink": "group_identity_uplink_identifier",
    "groupIdentityDownlink": "group_identity_downlink_identifier",
    "groupAddress": "group_address_of",
    "subscriber-class": "subscriber_class_lem",
    "accept-type": "accept_type_lem",
    "accept-reject": "accept_reject_lem",
    "update-type": "update_type_lem",
}


def files(*patterns):
    return sorted(f for p in patterns for f in glob.glob(p, recursive=True) if "/out/" not in f)


def declared():
    words, lemmas = set(), set()
    for f in files("crates/*/specs/**/*.antt", "crates/*/proofs/**/*.antt"):
        for line in open(f, encoding="utf-8").read().split("\n"):
            m = DECLARED.match(line)
            # An answer's label is the toolchain's.
            if m and m[1] not in ("use", "λ") and not ANSWER.match(m[2]) and re.match(r"[a-z]", m[1]):
                (lemmas if "-" in m[1] else words).add(m[1])
    return words, lemmas


def snake(name):
    return HUMP.sub(lambda m: "_" + m[1].lower(), name)


def joined(name, names):
    """A dash stays between two names, and a plain word is added with an underscore."""
    parts = [snake(p) for p in name.split("-")]
    runs, at = [], 0
    while at < len(parts):
        for n in range(len(parts), at, -1):
            if "_".join(parts[at:n]) in names:
                break
        else:
            n = at + 1
        n = max(n, at + 1)
        word = "_".join(parts[at:n])
        runs.append((word, word in names))
        at = n
    out = runs[0][0]
    for (_, a), (word, b) in zip(runs, runs[1:]):
        out += ("-" if a and b else "_") + word
    return out


def turns():
    words, lemmas = declared()
    new = {w: OTHERWISE.get(w, snake(w)) for w in words}
    names = set(new.values()) | NAMES
    # A lemma that would have the name of a definition gets another ending.
    taken = set(new.values())
    for w in sorted(lemmas):
        b = OTHERWISE.get(w, joined(w, names))
        new[w] = b + "_lem" if b in taken else b
    for w in sorted(words):
        # port.py has spelled this lemma anew already, and a definition gets its name now.
        if new[w] == w and any(snake(o) == w for o in words if o != w):
            new[w] = w + "_lem"
    return {a: b for a, b in new.items() if a != b}


def turn(text, path, turned):
    walk = re.search(r"/proofs/.*/(Proof|Answers|Invariants)\w*\.antt$", path)

    def one(m):
        w = m[0]
        dotted = text[max(m.start() - 1, 0) : m.start()] == "."
        # Behind a dot in a function's proof stands a step of the code, and in Rust a name without a hump or a dash is Rust's.
        if w not in turned or not HUMP.search(w) and (walk and dotted or path.endswith(".rt") and "-" not in w):
            return w
        return turned[w]

    if path.endswith(".md"):
        return re.sub(r"`[^`\n]+`", lambda s: turn(s[0], "", turned), text)
    return WORD.sub(one, text)


if __name__ == "__main__":
    table = turns()
    if "--list" in sys.argv:
        for a, b in sorted(table.items()):
            print(a, b)
        sys.exit()
    for f in files("crates/**/*.antt", "crates/**/*.rt", "crates/*/must-fail/*.edit", "README.md", "docs/*.md"):
        old = open(f, encoding="utf-8").read()
        new = turn(old, f, table)
        if new != old:
            open(f, "w", encoding="utf-8").write(new)
