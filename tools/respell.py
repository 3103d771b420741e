#!/usr/bin/env python3
"""Brings the repository's own words in specs/ and proofs/ to one spelling: snake case for functions and lemmas, camel
case for facts. Run once at the top, after the kit's own script; it prints each name that would fall together."""
import os
import re
import sys

# Runs of letters, digits, dashes, low lines and apostrophes: one word of a clause or a proof.
WORD = re.compile(r"[A-Za-z][A-Za-z0-9_'-]*")
HEAD = re.compile(
    r"^(\s*)((?:abbrev |unfoldable |pub |data |record |ruleset )*)([A-Za-z][A-Za-z0-9_'-]*)\s*"
    r"(?:\([^()]*(?:\([^()]*\)[^()]*)*\)\s*|\{[^}]*\}\s*)*:\s+(.*)")
MADE = re.compile(r"^(invariant-|decreases-|loop-|returns|overflow_|bounds-|ghost-|prove-|in_|if-|then-|else-|match-|slice_bounds|nonzero|offset_bounds)")
FOREIGN = re.compile(r"use (?:Rattle\.std|borrow|denote|mathlib|Prim|base|lib|formal)[^{;\n]*\{([^}]*)\}")


def texts():
    for folder, dirs, files in os.walk("crates"):
        dirs[:] = sorted(d for d in dirs if d != "out")
        for f in sorted(files):
            if f.endswith((".antt", ".rt", ".edit")):
                yield os.path.join(folder, f)


def snake(word):
    word = re.sub(r"(?<=[a-z0-9])([A-Z])(?=[a-z])", lambda m: "_" + m.group(1).lower(), word)
    word = re.sub(r"(?<=[a-z0-9])([A-Z]+)(?![a-z])", lambda m: "_" + m.group(1).lower(), word)
    return word.replace("-", "_")


def spelled(word, kind):
    """The new spelling of a word that is declared with this type."""
    if word[0].isupper():
        return word.replace("-", "_") if "-" in word else word
    if re.search(r"Type 0\s*(where)?$", kind) and re.search(r"[a-z][A-Z]", word):
        return word[0].upper() + word[1:]
    if re.match(r"^[a-z0-9]+(-[A-Z0-9a-z'_]+)+$", word):
        return "_".join(p if p.isupper() else snake(p) for p in word.split("-"))
    return snake(word)


# A lemma that would have the name of a definition that it is about.
LEMMAS = {
    "is-index", "next-read", "same-mark", "at-marking", "rolled-back", "or-halted", "as-fact", "other-table", "is-table",
    "is-position", "term-end", "with-room", "checks-in", "word-token", "operator-by", "nil-in", "as-number", "with-number",
    "word-in",
}


# Constructors that share a line, and words that look like goals.
MORE = {
    "rollBack": "roll_back", "commitNow": "commit_now", "atEnd": "at_end", "cutOff": "cut_off", "unlawfulStart": "unlawful_start",
    "runUpdate": "run_update", "runDelete": "run_delete", "use-of": "use_of", "checks-left": "checks_left", "node-is": "node_is",
    "then-assoc": "then_assoc", "then-stop": "then_stop", "then-ranged": "then_ranged", "onX": "on_x", "onY": "on_y", "onB": "on_b",
    "sign-variants": "sign_variants", "keyword-variants": "keyword_variants",
}

# Here the kit's script gave a lemma the name that the definition has now.
AFTER = ("crates/terms/proofs/Accepting.antt", "crates/terms/proofs/Completing.antt")


def declared():
    """Each name that a file of specs/ or proofs/ declares and that is spelled otherwise today."""
    found = {}
    for p in texts():
        if not p.endswith(".antt"):
            continue
        with open(p, encoding="utf-8") as f:
            for line in f:
                m = HEAD.match(line)
                if not m or line.lstrip().startswith("--"):
                    continue
                word, kind = m.group(3), m.group(4).strip()
                if "goal." in kind or MADE.match(word):
                    continue
                new = spelled(word, kind) + ("_lem" if word in LEMMAS else "")
                if new != word:
                    found.setdefault(word, new)
    return found


def main():
    names = declared() | MORE
    clash = 0
    new_of = {}
    for old, new in names.items():
        if new in new_of:
            print(f"two words: {old} and {new_of[new]} would be {new}")
            clash += 1
        new_of[new] = old
    for p in texts():
        with open(p, encoding="utf-8") as f:
            text = f.read()
        foreign = set()
        for m in FOREIGN.finditer(text):
            foreign |= {w.strip().split(" as ")[-1] for w in m.group(1).split(",")}
        words = set(WORD.findall(text))
        # What a function of the same name is called, or a path through it, hides nothing.
        bare = re.sub(r"Rattle(\.[^\s.{;]+)+", "", text)
        if p.endswith(".rt"):
            bare = re.sub(r"(?m)^\s*(pub )?use [^;]*;|[a-z_]+\(|//.*", "", bare)
        bare = set(WORD.findall(bare))
        for old in sorted(words & set(names)):
            if names[old] in bare:
                print(f"{p}: {old} would be {names[old]}, which stands there")
                clash += 1
            if old in foreign:
                print(f"{p}: {old} comes from the library")
                clash += 1
    if clash and "--force" not in sys.argv:
        raise SystemExit(f"{clash} places; nothing was changed")
    for p in texts():
        with open(p, encoding="utf-8") as f:
            text = f.read()
        if p in AFTER:
            text = re.sub(r"\bgoes_on\b", "goes_on_lem", text)
        out = WORD.sub(lambda m: names.get(m.group(0), m.group(0)), text)
        if out != text:
            with open(p, "w", encoding="utf-8") as f:
                f.write(out)
    print(f"{len(names)} words")


main()
