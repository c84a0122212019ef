#!/usr/bin/env python3
"""Respells the repository's own definitions and lemmas: words in snake case, facts and types as they are.

Run once, at the top, after the toolchain's own porting script. A definition keeps its words: `sharesBit` becomes
`shares_bit`. In the name of a lemma a dash stays only where it joins the names of two definitions; else it becomes an
underscore. Names that would fall together in one crate are told apart by the table SPECIAL. In src/ only words in camel
case are respelled, which are words of clauses and comments; functions, fields of src/ and strings keep their spelling.
"""
import glob
import re
import sys

HEAD = re.compile(r"^(?:|\s+(?=abbrev|pub|[a-z0-9]+-))(?:(?:abbrev|unfoldable|pub) )*(?:(?:data|record|ruleset) )?([^\s:{(]+)(?: \{[^}]*\})*(?: \([^)]*\))* :")
KEPT_DASH = {"length-holds", "length-others"}
SPECIAL = {
    "last_line": "last_line_lem",
    "digit_value": "digit_value_lem",
    "list-after": "list_after_lem",
    "no-rows": "has_no_rows",
    "length-hexDigits": "length-hex_digits",
    "value-hexDigits": "value_on-hex_digits",
    "word-hexDigits": "hex_word_of-hex_digits",
    "free-hexDigits": "Free-hex_digits",
    "free-decimal": "Free-decimal",
    "plain-decimal": "Plain-decimal",
    "numberAs": "number_as",
}


def snake(name):
    return re.sub(r"(?<=[a-z0-9])([A-Z])", lambda m: "_" + m.group(1).lower(), name)


def files(*kinds):
    return sorted(f for k in kinds for f in glob.glob(f"crates/*/{k}", recursive=True))


def declared():
    for f in files("specs/**/*.antt", "proofs/**/*.antt"):
        lemmas = f.count("/") == 3 and "/proofs/" in f
        for line in open(f):
            m = HEAD.match(line)
            if m:
                yield m.group(1), lemmas or "/specs/" in f


def table():
    names = dict(SPECIAL)
    for name, shared in declared():
        if name in names or not re.match(r"[a-z]", name):
            continue
        new = snake(name)
        if shared and name not in KEPT_DASH:
            new = new.replace("-", "_")
        if new != name:
            names[name] = new
    return names


def respell(text, names, dashes):
    out, at = [], 0
    for m in re.finditer(r'"(?:[^"\\\n]|\\.)*"|[A-Za-z0-9_\'-]+', text):
        word = m.group(0)
        new = names.get(word)
        if new and (dashes or "-" not in word):
            out.append(text[at:m.start()] + new)
            at = m.end()
    return "".join(out) + text[at:]


def main():
    names = table()
    # a snake case word of SPECIAL is a lemma's name: src/ may use the same word for a function
    source = {k: v for k, v in names.items() if re.search("[a-z][A-Z]", k) and "-" not in k}
    for f in files("specs/**/*.antt", "proofs/**/*.antt", "src/**/*.rt"):
        text = open(f).read()
        ghost = f.endswith(".rt")
        new = respell(text, source if ghost else names, not ghost)
        if new != text:
            open(f, "w").write(new)
    for old, new in sorted(names.items()):
        print(f"{old} {new}")


if __name__ == "__main__":
    sys.exit(main())
