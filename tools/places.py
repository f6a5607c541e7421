#!/usr/bin/env python3
"""Counts the places of docs/DESIGN-PASS.md in crates/*/src, point by point.

    python3 tools/places.py [TOP]           the counts, of the repository at TOP, or of this one
    python3 tools/places.py --list [TOP]    each place with its file and line

A command can only find what has a form. What it lists is read: docs/DESIGN-PASS.md says of each place what became of it.
"""
import glob
import os
import re
import sys

NAMED = [a for a in sys.argv[1:] if not a.startswith("--")]
TOP = os.path.abspath(NAMED[0]) if NAMED else os.path.dirname(os.path.dirname(os.path.abspath(__file__)))


def sources():
    for path in sorted(glob.glob(os.path.join(TOP, "crates", "*", "src", "*.rt"))):
        with open(path, encoding="utf-8") as f:
            yield os.path.relpath(path, TOP), f.read()


def line_of(text, at):
    return text.count("\n", 0, at) + 1


def enums(text):
    """Each enum with its variants, as (place, name, [(variant, what it carries)])."""
    for m in re.finditer(r"^[ \t]*(?:pub(?:\(crate\))? )?enum (\w+) \{(.*?)^\}", text, re.S | re.M):
        variants = re.findall(r"^\s+(\w+)(\([^)]*\))?,", m.group(2), re.M)
        yield m.start(), m.group(1), variants


def functions(text):
    """Each function as (place, name, parameters, result, contract and body)."""
    for m in re.finditer(r"^[ \t]*(?:pub(?:\(crate\))? )?(?:extern \"C\" )?fn (\w+)[^(]*\(", text, re.M):
        depth, i = 1, m.end()
        while depth:
            depth += {"(": 1, ")": -1}.get(text[i], 0)
            i += 1
        end = re.search(r"^[ \t]*\}|^\}", text[i:], re.M)
        rest = text[i:i + end.end()] if end else text[i:]
        result = re.match(r"\s*->\s*([^\n{]+)", rest)
        yield m.start(), m.group(1), text[m.end():i - 1], result.group(1).strip() if result else "", rest


def bare(text):
    """The text without its comments, with blanks of the same length."""
    return re.sub(r"//[^\n]*", lambda m: " " * len(m.group()), text)


NO_FAULT = {"Done", "Not", "Laid", "Begins"}


def point_1(path, text):
    for at, name, variants in enums(text):
        carry = [v for v, what in variants if what]
        none = [v for v, what in variants if not what]
        if (carry and (len(carry) == 1 or len(variants) == 2)) or NO_FAULT & set(none):
            yield at, "enum %s: %s" % (name, ", ".join(v + w for v, w in variants))
    for m in re.finditer(r"^[ \t]*(?:pub )?struct (\w+)[^{;\n]*\{(.*?)^\}", text, re.S | re.M):
        fields = re.findall(r"^\s+(?:pub )?(\w+): ([^\n,]+)", m.group(2), re.M)
        names = [f for f, _ in fields]
        if {"refusal", "refused", "half"} & set(names):
            yield m.start(), "struct %s: a refusal or a flag beside values: %s" % (m.group(1), ", ".join(names))
    for m in re.finditer(r"\b(?:NO_BYTE\b|=> 16,|== 16\b|d == 17|=> 17,)", text):
        yield m.start(), "a number that stands for none: %s" % m.group()
    for m in re.finditer(r"\.is\((?:0x[0-9A-F]{2}|codes::NO_BYTE)\)", text):
        yield m.start(), "a number for a kind: %s" % m.group()
    for m in re.finditer(r"fn (number_of|number|made_number|stage_number|stepping_number|stepping_at|stage_of|instruction_at|work_at|why_of)"
                         r"\((?!s: &\[u8\]|self|stretch)", text):
        yield m.start(), "numbers for kinds or refusals: fn %s" % m.group(1)
    for m in re.finditer(r"^\s+letter: u8,", text, re.M):
        yield m.start(), "a number for a kind: letter: u8"


def point_2(path, text):
    for at, name, _, _, rest in functions(text):
        body = rest[rest.find("{", rest.find("\n{")):] if "\n{" in rest else rest
        if re.search(r"\{\s*if (\w+) < (\w+) \{\s*(?:return )?\1;?\s*\}(?: else \{)?\s*\2\s*\}?\s*\}", body) \
                or re.search(r"\{\s*if (\w+) < (\w+) \{ (\1|\2) \} else \{ (\1|\2) \}\s*\}", body):
            yield at, "own min or max: fn %s" % name


def shape(text):
    """A function's text with names of types, numbers and own name taken out."""
    text = re.sub(r"\b0x[0-9A-Fa-f]+\b|\b\d+\b", "N", text)
    text = re.sub(r"\b[A-Z]\w*\b", "T", text)
    return re.sub(r"\s+", " ", text).strip()


def twins():
    """Functions of one shape: the same text but for numbers and types, over all files."""
    seen = {}
    for path, text in sources():
        if path.startswith("crates/sleetanvil_c/"):
            continue
        for at, name, args, result, rest in functions(bare(text)):
            body = rest[rest.find("{", rest.find("\n")):] if "\n" in rest else rest
            key = shape(args) + " -> " + shape(result) + shape(body)
            if len(body) > 40:
                seen.setdefault(key, []).append((path, line_of(text, at), name))
    for key, places in sorted(seen.items(), key=lambda kv: kv[1]):
        if len(places) > 1:
            yield places


def point_3(path, text):
    for m in re.finditer(r"^[ \t]*(?:'\w+: )?(while|loop)\b[^\n]*", bare(text), re.M):
        yield m.start(), m.group().strip()


def point_4(path, text):
    for m in re.finditer(r"\b(?:part::)?wide(?:_short|_byte)?\(|\bcolumns::wide_byte\(|\blow\(", text):
        yield m.start(), "a conversion by hand: %s" % m.group()
    for m in re.finditer(r"\b(?:\w+::)?(?:both|either|flag|begins|passes|is_open|fill|copy)\([^\n]*", text):
        if m.group().startswith("begins(") and path.startswith(("crates/device", "crates/cards")):
            continue
        if "fn " in text[text.rfind("\n", 0, m.start()) + 1:m.start()] or "::" in m.group() or m.group().startswith(("both", "either", "flag", "copy")):
            yield m.start(), "logic, equality or a copy by hand: %s" % m.group()[:60]
    for m in re.finditer(r"^\s+if [^{;\n]+\{\n\s+return false;\n", text, re.M):
        yield m.start() + 1, "a conjunction by hand"
    for m in re.finditer(r"\{ (?:if [^{}\n]+ \{ [^{}\n]+ \} else \{ (?:true|false) \}|if [^{}\n]+ \{ (?:true|false) \} else \{ [^{}\n]+ \}) \}", text):
        yield m.start(), "logic by hand"
    for m in re.finditer(r"^\s*if [^{}\n]+ \{ (?:[^{}\n]+ \} else \{ (?:true|false)|(?:true|false) \} else \{ [^{}\n]+) \}", text, re.M):
        yield m.start(), "logic by hand"
    for m in re.finditer(r"^\s+(\w+): \1,$", text, re.M):
        yield m.start() + 1, "a field written twice: %s" % m.group(1)
    for m in re.finditer(r"\bio::(?:write_all|print_decimal|print_hex)\(", text):
        yield m.start(), "printing by hand: %s" % m.group()


def point_5(path, text):
    for at, name, args, _, rest in functions(text):
        names = re.findall(r"(\w+): &mut \[u8\]", args)
        if {"cells", "cache", "counts"} <= set(names) or {"cells", "bits"} <= set(names):
            yield at, "lent memory, buffer by buffer: fn %s" % name
        elif "SoundMachine g" in rest or "Sound g" in rest.split("{", 2)[-1][:200] and "requires" in rest:
            yield at, "a sound part asked for: fn %s" % name


def point_6(path, text):
    for m in re.finditer(r"^\s+(?:pub )?(?:tags|numbers): \[\w+; \d+\],", text, re.M):
        yield m.start() + 1, "an array with a place or a length beside it"
    for m in re.finditer(r"&mut \[u8; 2048\]|\[0u8; (?:16384|32768|131072)\]", text):
        yield m.start(), "a buffer with a length beside it: %s" % m.group()


def point_7(path, text):
    for at, name, args, _, rest in functions(text):
        arms = re.findall(r"=> \w+\([^\n]*\),?$", rest, re.M)
        if len(arms) >= 3 and re.search(r"\bmatch (job|part|letter)\b", rest):
            yield at, "which step to run: fn %s" % name


POINTS = [point_1, None, point_3, point_4, point_5, point_6, point_7]


def main():
    listing = "--list" in sys.argv[1:]
    for number in range(1, 8):
        found = []
        if number == 2:
            for path, text in sources():
                found += [(path, line_of(text, at), what) for at, what in point_2(path, text)]
            for places in twins():
                for path, line, name in places:
                    found.append((path, line, "one shape with %s: fn %s"
                                  % (", ".join("%s:%d" % p[:2] for p in places if p[:2] != (path, line)), name)))
        else:
            for path, text in sources():
                found += [(path, line_of(text, at), what) for at, what in POINTS[number - 1](path, text)]
        found = sorted(set(found))
        print("point %d: %d" % (number, len(found)))
        if listing:
            for path, line, what in found:
                print("  %s:%d: %s" % (path, line, what))
    answers = glob.glob(os.path.join(TOP, "crates", "*", "proofs", "**", "*.antt"), recursive=True)
    named = {k: sum(os.path.basename(p) == k for p in answers) for k in ("Answers.antt", "Invariants.antt")}
    lines = sum(sum(1 for _ in open(p, encoding="utf-8")) for p in answers)
    print("point 8: %d files of answers, %d of invariants, %d files in all, %d lines"
          % (named["Answers.antt"], named["Invariants.antt"], len(answers), lines))


if __name__ == "__main__":
    main()
