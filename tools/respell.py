#!/usr/bin/env python3
"""Brings the repository's own definitions and lemmas to the spelling of today's Rattle, once: words in snake case, types and facts in camel case.

usage: python3 tools/respell.py [--list]     at the top of a repository that port.py has just turned; --list only prints what would be renamed

A name in camel case that begins small gets underscores (soundPart: sound_part), and so does one with dashes (guarded-few: guarded_few). A
name is renamed in the file that defines it, in the files that import it from there, and, if it is a field, everywhere. Functions of src/,
exported names, strings, inputs and outputs keep their names. Two names that would fall together stop the script; BY_HAND says what they are called instead. The texts of the must-fail
edits follow the file that they edit.
"""

import collections
import glob
import os
import re
import sys

# What the rules would make fall together, or does not read well.
BY_HAND = {
    "let-in": "lets_in",
    "work-sound": "sound_work",
    "new-keeper": "new_keeper_lem",
    "queue-sound": "queue_sound_lem",
    "open-as": "open_as_lem",
    "cmp-cleared": "cmp_cleared_lem",
    "cmp-set": "cmp_set_lem",
    "program-fate": "program_fate_lem",
    "grant-given": "grant_given_lem",
    "in-page": "in_page_lem",
    "no_shift": "no_shift_lem",
    "judged-right": "judged_right_lem",
    "answer-length": "answer_length_lem",
}

TOKEN = re.compile(r"[^\s(){}\[\],;.@\"⌜⌝]+")
DEFINED = re.compile(
    r"^(\s*)(?:abbrev\s+|unfoldable\s+|pub\s+|ruleset\s+)*(record\s+|data\s+)?([^\s(){}\[\],;.\"]+)"
    r"\s+(?:\([^)]*\)\s*|\{[^}]*\}\s*)*:(?!=)\s"
)
USE = re.compile(r"^\s*(?:ghost\s+)?(?:pub\s+)?use\s+(Rattle\.[\w.+'-]+)\.\{([^}]*)\}")


def read(path):
    with open(path, encoding="utf-8") as f:
        return f.read()


def module_of(path):
    return "Rattle." + path[len("crates/"):-len(".antt")].replace("/", ".")


def snake(part):
    if part[:1].isupper():
        return part
    return re.sub(r"(?<=[a-z0-9])([A-Z])", lambda m: "_" + m.group(1).lower(), part)


def apart(text):
    """The tokens of a text but for those in a path of ours, which no name of ours is mistaken for."""
    return set(TOKEN.findall(re.sub(r"\bRattle\.[^\s{(]*", "", text)))


def main():
    listing = "--list" in sys.argv[1:]
    files = sorted(glob.glob("crates/*/specs/**/*.antt", recursive=True) + glob.glob("crates/*/proofs/**/*.antt", recursive=True))
    rts = sorted(glob.glob("crates/*/src/**/*.rt", recursive=True))
    walks = {p for p in files if p.endswith("/Proof.antt")}
    texts = {p: read(p) for p in files + rts}

    # who defines what; fields are known everywhere
    defs, fields = collections.defaultdict(set), set()
    for p in files:
        in_record = None
        for line in texts[p].split("\n"):
            if line.strip().startswith("--"):
                continue
            m = DEFINED.match(line)
            if in_record is not None and line.strip() and not line.startswith(" "):
                in_record = None
            if m and p not in walks:
                name = m.group(3)
                defs[p].add(name)
                if in_record is not None and m.group(1) and not m.group(2):
                    fields.add(name)
            if re.match(r"^\s*(?:pub\s+)?record\s", line):
                in_record = line

    def renamed(name):
        if name in BY_HAND:
            return BY_HAND[name]
        if not re.search(r"[a-z0-9][A-Z]|-", name) or not re.match(r"[A-Za-z]", name):
            return name
        if name[0].isupper():
            return re.sub(r"-(.)", lambda m: m.group(1).upper(), name) if "-" in name and name.split("-")[1][:1].isdigit() else name
        return "_".join(snake(part) for part in name.split("-"))

    moved = {}
    for p in files:
        for name in defs[p]:
            if renamed(name) != name:
                moved[name] = renamed(name)

    # per file: what it defines, what it imports from a module of ours, and fields
    exports = {module_of(p): defs[p] for p in files}
    crates = {p.split("/")[1] for p in files}
    plan, clashes = {}, []
    for p in files + rts:
        here = {n: moved[n] for n in defs.get(p, ()) if n in moved}
        for line in re.sub(r"\{([^}]*)\}", lambda m: "{" + m.group(1).replace("\n", " ") + "}", texts[p]).split("\n"):
            m = USE.match(line)
            if m:
                ours = exports.get(m.group(1))
                if ours is None and m.group(1).split(".")[1] in crates:
                    ours = set()
                for n in (x.strip().split(" as ")[0].strip() for x in m.group(2).split(",")):
                    if ours and n in ours and n in moved:
                        here[n] = moved[n]
        for n in fields:
            if n in moved:
                here.setdefault(n, moved[n])
        plan[p] = here
        tokens = set(TOKEN.findall(texts[p]))
        for old, new in here.items():
            if p.endswith(".rt"):
                if old in tokens and re.search(r"\b%s\s*:|\blet (mut )?%s\b" % (new, new), texts[p]):
                    clashes.append((p, old, new))
            elif old in tokens and new not in here and new in apart(texts[p]) and (old not in fields or old in defs[p]):
                clashes.append((p, old, new))
            twins = [o for o, w in here.items() if w == new and o != old and o in tokens]
            if old in tokens and twins:
                clashes.append((p, old, new, twins))
    if listing or clashes:
        for n in sorted(moved):
            print(n, "->", moved[n], "(field)" if n in fields else "")
        print(len(moved), "names")
        for c in clashes:
            print("clash:", *c)
        raise SystemExit(1 if clashes else 0)

    def turned(text, here, path):
        def one(m):
            t = m.group(0)
            if path in walks and re.search(r"(\bbefore|\bc|\bs)\.$", text[max(0, m.start() - 8):m.start()]):
                return t
            return here.get(t, t)

        aliases = re.findall(r"^use Rattle\.\S+ as (\S+)", text, re.M)
        if aliases:
            inside = r"(?<![^\s(){},;])(%s)\.([^\s(){}\[\],;.]+)" % "|".join(map(re.escape, aliases))
            text = re.sub(inside, lambda m: m.group(1) + "." + moved.get(m.group(2), m.group(2)), text)
        return TOKEN.sub(one, text)

    for p, here in plan.items():
        new = turned(texts[p], here, p)
        if new != texts[p]:
            with open(p, "w", encoding="utf-8") as f:
                f.write(new)
    for p in sorted(glob.glob("crates/*/must-fail/*.edit")):
        crate, path, out = p.split("/")[1], None, []
        for line in read(p).split("\n"):
            if line.startswith("file: "):
                path = f"crates/{crate}/{line[6:]}"
            if line.startswith(("old: ", "new: ")) and path in plan:
                line = line[:5] + turned(line[5:], plan[path], path)
            out.append(line)
        if "\n".join(out) != read(p):
            with open(p, "w", encoding="utf-8") as f:
                f.write("\n".join(out))
    for p in ["README.md", *sorted(glob.glob("docs/*.md") + glob.glob("docs/changes/*.md"))]:
        new = re.sub(r"`([^`\s]+)`", lambda m: "`" + moved.get(m.group(1), m.group(1)) + "`", read(p))
        if new != read(p):
            with open(p, "w", encoding="utf-8") as f:
                f.write(new)
    print(f"respell: {len(moved)} names")


if __name__ == "__main__":
    os.chdir(os.path.join(os.path.dirname(os.path.abspath(__file__)), ".."))
    main()
