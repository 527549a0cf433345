#!/usr/bin/env python3
"""Brings the repository's own definitions, fields and lemmas to snake case, once, after the toolchain's port.py.

usage: python3 tools/respell.py        at the top of the repository; files are rewritten in place

A dash between two words becomes an underscore, in specs/, proofs/ and the clauses of src/. Names that the checker makes
(goals, invariants, steps) stay, as do strings, comments and all names of the code. Where the new name is taken already by a function
or variable of the code, the name in OTHERS is used, but not for a step of a proof, which is named after the code. It prints what it renamed, and stops before any change where two names would fall together."""

import os
import re
import sys

WORD = r"[^\s(){}\[\]:;,.λ\"⌜⌝∥₁]+"
MADE = re.compile(r"^(pub |abbrev |unfoldable )*\S+\s*:\s*(goal|measure)\.")
SIGNATURE = re.compile(r"(?m)^[ \t]*((?:abbrev |unfoldable |pub |record |data |mod |module )*)(" + WORD + r")[ \t]*((?:\{[^}]*\}[ \t]*|\([^)\n]*\)[ \t]*)*):[ \n]")
OTHERS = {
    "any-live": "any_live_lem",
    "dot-last": "dot_last_lem",
    "fault-in": "fault_in_lem",
    "first-mark": "first_mark_lem",
    "first-settles": "first_settles_lem",
    "first-takes": "first_takes_lem",
    "in-number": "in_number_lem",
    "key-letter": "key_letter_lem",
    "live-after": "live_after_lem",
    "open-entry": "open_entry",
    "read-to-end": "read_to_end_lem",
    "report-lines": "report_lines_lem",
    "sale-cases": "sale_cases_lem",
    "symbol-of": "symbol_of_lem",
    "timer-letter": "timer_letter_lem",
    "token-sign": "token_sign_lem",
    "with-dot": "with_dot_lem",
    "writing-stands": "writing_stands_lem",
}


def files(ends):
    for folder, dirs, names in os.walk("crates"):
        dirs[:] = sorted(d for d in dirs if d not in ("out", ".git"))
        for n in sorted(names):
            if n.endswith(ends):
                yield os.path.join(folder, n)


def split(text, rust):
    """The text as (kept, piece) pairs: kept pieces are strings and comments."""
    mark = r"//[^\n]*|b?\"(?:\\.|[^\"\\])*\"" if rust else r"--[^\n]*|\"(?:\\.|[^\"\\])*\""
    at = 0
    for m in re.finditer(mark if rust else r"(?:(?<=\s)|^)--(?=\s)[^\n]*|\"(?:\\.|[^\"\\])*\"", text, re.M):
        yield False, text[at:m.start()]
        yield True, m[0]
        at = m.end()
    yield False, text[at:]


def code(text, rust):
    return "".join(" " * len(p) if kept else p for kept, p in split(text, rust))


def snake(name):
    return re.sub(r"(?<=[A-Za-z0-9_'])-(?=[A-Za-z0-9_'])", "_", name)


def main():
    texts = {p: open(p, encoding="utf-8").read() for p in files((".antt", ".rt"))}
    own, made, tokens = {}, set(), set()
    for p, t in texts.items():
        plain = code(t, p.endswith(".rt"))
        for m in re.finditer(WORD, plain):
            tokens.add(m[0])
        if not p.endswith(".antt"):
            continue
        made |= set(re.findall(r"(?:goal|Goals|Given)\.(" + WORD + ")", plain))
        for m in SIGNATURE.finditer(plain):
            name = m[2]
            if "-" in name and snake(name) != name and name[0].isalpha():
                own.setdefault(name, p)
    own = {n: p for n, p in own.items() if n not in made}
    new, bad = {}, []
    for n in sorted(own):
        to = OTHERS.get(n, snake(n))
        if to in tokens and to not in OTHERS.values():
            bad.append((n, to, own[n]))
        if to in new.values():
            bad.append((n, to, "twice"))
        new[n] = to
    for n, to, p in bad:
        print("taken:", n, to, p)
    if bad and "--force" not in sys.argv:
        raise SystemExit(f"{len(bad)} new names are taken")
    for p, t in texts.items():
        out = []
        for kept, piece in split(t, p.endswith(".rt")):
            out.append(piece if kept else re.sub(r"(\.?)(" + WORD + ")", lambda m: m[1] + (snake(m[2]) if m[1] and m[2] in OTHERS else new.get(m[2], m[2])), piece))
        out = "".join(out)
        if out != t:
            with open(p, "w", encoding="utf-8") as f:
                f.write(out)
    print(len(new), "names respelled")


main()
