#!/usr/bin/env python3
"""Brings the definitions and lemmas of this repository to the spelling that the library has:
words in snake case (boss_number, seek_here), types in camel case (TookIn).

usage: python3 tools/respell.py [--dry]      at the top of the repository, after port.py, once

A name is turned where specs/ or proofs/ declare it: a definition, a lemma, a local one under 'where', a
record's field or a constructor. Names that Rattle makes for the goals of a function keep their hyphens, and so
does all text in comments and strings. Names of src/ are not touched. Two names that would fall together stop it.
"""
import os
import re
import subprocess
import sys

WORD = r"[A-Za-z_Ͱ-Ͽ][\w'·]*(?:-[\w'·]+)*"
TOKEN = re.compile(WORD)
TOP = re.compile(rf"^(?:(?:abbrev|unfoldable|irreducible|opaque)\s+)?(?:pub\s+)?({WORD})\s*(?:\{{[^}}]*\}}\s*)?:(?!=)(.*)")
TYPE = re.compile(rf"^(?:(?:abbrev|unfoldable)\s+)?(?:pub\s+)?(record|data)\s+({WORD})")
INNER = re.compile(rf"^\s+(?:pub\s+)?({WORD})\s*:(?!=)\s")
# Lemmas that would fall together with the definition that they are about.
APART = {
    "all-hex": "all_hex_of",
    "boss-did": "boss_did_moves",
    "coins-fit": "coins_fit_shape",
    "frame-bytes": "frame_bytes_framed",
    "give-new": "give_new_moves",
    "give-open": "give_open_moves",
    "helper-at": "helper_at_place",
    "helper-did": "helper_did_moves",
    "helper-hears": "helper_hears_so",
    "is-boss": "must_be_boss",
    "is-done": "is_done_below",
    "is-give": "is_give_about",
    "mail-at": "mail_at_middle",
    "no-helper": "no_helper_before",
    "no-work": "no_work_without_coins",
    "on-places": "on_places_own",
    "share-at": "share_at_moves",
    "to-boss": "goes_to_boss",
    "to-helper": "goes_to_helper",
    "work-bytes": "work_bytes_encoded",
}
# These stand as lemmas' names too, in files that do not have both.
SAME = {"goesOn", "onLine"}
KEYWORDS = {"use", "mod", "pub", "where", "let", "in", "record", "data", "unfolding", "abbrev", "unfoldable"}


def files():
    out = subprocess.run(["git", "ls-files", "crates"], capture_output=True, text=True, check=True).stdout.split("\n")
    return [f for f in out if os.path.isfile(f)]


def snake(name):
    if name in APART:
        return APART[name]
    if name[0].isupper():
        parts = name.split("-")
        return parts[0] + "".join(p[:1].upper() + p[1:] for p in parts[1:])
    name = name.replace("-", "_").replace("·", "_")
    name = re.sub(r"(?<=[a-z0-9'])([A-Z])", lambda m: "_" + m.group(1).lower(), name)
    return name.lower() if not re.search(r"[A-Z]", name) else re.sub(r"[A-Z]+", lambda m: m.group(0).lower(), name)


def declared(path, text):
    """Names that a file declares: (name, whether it is a field)."""
    kind = None
    answers = bool(re.search(r"/proofs/.+/(Answers|Invariants|Proof)\.antt$", path))
    for line in text.split("\n"):
        line = re.sub(r"--.*", "", line)
        m = TYPE.match(line)
        if m:
            kind = m.group(1)
            yield m.group(2), False
            continue
        if line and not line[0].isspace():
            kind = None
            m = TOP.match(line)
            if m and m.group(1) not in KEYWORDS:
                if not (answers and re.match(r"\s*(goal|given)\.", m.group(2))):
                    yield m.group(1), False
            continue
        m = INNER.match(line)
        if m and m.group(1) not in KEYWORDS:
            yield m.group(1), kind == "record"
        for n in re.findall(rf"\blet\s+({WORD})\s*:(?!=)", line):
            yield n, False


def split(text, rt):
    """Parts of a text: (part, whether names in it may be turned)."""
    pattern = r'//[^\n]*|b?"(?:\\.|[^"\\])*"' if rt else r"--[^\n]*|\"(?:\\.|[^\"\\])*\""
    at = 0
    for m in re.finditer(pattern, text):
        yield text[at : m.start()], True
        yield m.group(0), False
        at = m.end()
    yield text[at:], True


def turn(text, names, fields, rt):
    def one(part):
        def to(m):
            n = m.group(0)
            if n not in names:
                return n
            before = part[: m.start()]
            if before.endswith(".") and n not in fields and not re.search(r"(?:specs|proofs)\.(?:\w+\.)*$", before):
                return n
            return names[n]

        return TOKEN.sub(to, part)

    return "".join(one(p) if own else p for p, own in split(text, rt))


def main(argv):
    dry = "--dry" in argv
    texts = {f: open(f, encoding="utf-8").read() for f in files() if f.endswith((".antt", ".rt", ".edit"))}
    names, fields, seen = {}, set(), {}
    for f, t in texts.items():
        if f.endswith(".antt"):
            for n, field in declared(f, t):
                seen.setdefault(n, []).append(f)
                if snake(n) != n:
                    names[n] = snake(n)
                if field:
                    fields.add(n)
    tokens = {}
    for f, t in texts.items():
        if f.endswith(".antt"):
            for part, own in split(t, False):
                if own:
                    for m in TOKEN.finditer(part):
                        if not part[: m.start()].endswith("."):
                            tokens.setdefault(m.group(0), set()).add(f)
    clash = 0
    turned = {}
    for n, to in sorted(names.items()):
        turned.setdefault(to, []).append(n)
    for to, ns in sorted(turned.items()):
        if len(ns) > 1:
            print("falls together:", ns, "->", to)
            clash += 1
        if to in tokens and ns[0] not in SAME:
            print("stands already:", ns, "->", to, sorted(tokens[to])[:4], seen[ns[0]][:2])
            clash += 1
    print(f"respell: {len(names)} names, {clash} clashes")
    if dry:
        for n, to in sorted(names.items()):
            print(f"  {n} -> {to}{' (field)' if n in fields else ''}")
        return 0
    if clash:
        return 1
    count = 0
    for f, t in texts.items():
        rt = f.endswith(".rt") or (f.endswith(".edit") and re.search(r"(?m)^file: .*\.rt$", t) is not None)
        new = turn(t, names, fields, rt)
        if new != t:
            open(f, "w", encoding="utf-8").write(new)
            count += 1
    print(f"respell: {count} files")
    return 0


if __name__ == "__main__":
    raise SystemExit(main(sys.argv[1:]))
