#!/usr/bin/env python3
"""Brings this repository's own definitions and lemmas to Rattle's spelling: snake case, where a dash stands only between two names.

usage: tools/respell.py [--list]     at the top, once, on what the kit's port.py left

What is respelled: names that stand in specs/ and in the lemma files of proofs/ (definitions, fields, constructors, lemmas, local ones too).
  runFrom          run_from
  answers-read     answers_read          a word behind a dash that is no definition's name
  length-drop      length-drop           two definitions' names
  aBoard           ABoard                the three facts that were spelled as functions
Names of capitals alone stay, as the documents have them (SET, ADD, NONE), and so do the names of src/. A lemma whose new name is a definition's
gets _lem. Where two names would fall together otherwise, this stops and says which.
It turns .antt files, the clauses and comments of .rt files, must-fail edits, and what stands between backticks in pages. --list prints the names.
"""

import os
import re
import sys

WORD = re.compile(r"[^\W\d][\w'′-]*", re.U)
SIGNATURE = re.compile(r"^( *)((?:abbrev |unfoldable |pub )*)([^\s:(){},.=]+(?: [^\s:(){},.=]+)*)((?: \{[^}]*\})*) : ", re.M)
FACTS = {"aProcess": "AProcess", "aBoard": "ABoard", "aChannel": "AChannel"}
# Where the plain spelling is another name's that stands in the same file.
OTHERS = {
    "oneLess": "one_less",
    "one_less": "one_less_lem",
    "runsOn": "runs_on_board",
    "byCode": "of_code",
    "inOrder": "in_order_of",
    "frontOf": "front_of",
    "lentLength": "lent_length",
}
KEYWORDS = {"pub", "abbrev", "unfoldable", "record", "data", "module", "use", "where", "let", "in", "syntax", "ruleset", "mod", "open"}


def files(root, *ends):
    for folder, dirs, names in os.walk(root):
        dirs[:] = sorted(d for d in dirs if d not in ("out", ".git", "target", "build"))
        for name in sorted(names):
            if name.endswith(ends):
                yield os.path.join(folder, name)


def read(path):
    with open(path, encoding="utf-8") as f:
        return f.read()


def is_lemma_file(path):
    parts = path.split(os.sep)
    return parts[2] == "specs" or (parts[2] == "proofs" and len(parts) == 4)


def declared():
    """Names declared in specs/ and lemma files, and those of them that are definitions (of specs/, with no dash)."""
    names, heads = set(), set()
    for path in files("crates", ".antt"):
        if not is_lemma_file(path):
            continue
        text = read(path)
        for m in SIGNATURE.finditer(text):
            words = m.group(3).split(" ")
            if words[0] in KEYWORDS or words[0].startswith("--"):
                continue
            for w in words:
                if WORD.fullmatch(w):
                    names.add(w)
                    if "-" not in w and (path.split(os.sep)[2] == "specs"):
                        heads.add(w)
        for m in re.finditer(r"(?:Prelude|Common|Math\.\w+|lemmas\.[\w.]+)\.\{([^}]*)\}", text):
            heads.update(w for w in m.group(1).split(", ") if WORD.fullmatch(w) and "-" not in w)
    return names, heads


def library():
    """Names that some file takes from the kit's libraries: they keep their spelling."""
    own = {"Rattle." + c for c in os.listdir("crates")}
    names = set()
    for path in files("crates", ".antt", ".rt"):
        for m in re.finditer(r"use ([\w.]+?)\.\{([^}]*)\}", read(path)):
            if ".".join(m.group(1).split(".")[:2]) not in own:
                names.update(w.strip().split(" as ")[0] for w in m.group(2).split(","))
    return names


def snake(word):
    if word in FACTS:
        return FACTS[word]
    if word[0].isupper():
        return word
    return re.sub(r"(?<=[a-z0-9'])([A-Z])", lambda m: "_" + m.group(1), word).lower()


def table():
    names, heads = declared()
    function = {snake(h) for h in heads}
    kept = library()
    new = {}
    for n in sorted(names):
        if "-" not in n:
            s = snake(n)
        else:
            parts = [snake(p) for p in n.split("-")]
            s = parts[0]
            for a, b in zip(parts, parts[1:]):
                whole = (a in function and b in function) or a[:1].isupper() or b[:1].isupper()
                s += ("-" if whole else "_") + b
        if s != n and n not in kept:
            new[n] = s
        elif n in kept and s != n:
            print("look: %s keeps the library's spelling" % n)
    return names, new


def taken():
    """Every word of the files, by file."""
    return {p: set(WORD.findall(read(p))) for p in files("crates", ".antt", ".rt")}


def settled(names, new):
    words = taken()
    stands = set().union(*words.values())
    back = {}
    for n, s in new.items():
        back.setdefault(s, []).append(n)
    for s, olds in sorted(back.items()):
        lemmas = [n for n in olds if "-" in n]
        others = [n for n in olds if "-" not in n]
        clash = s in stands or len(olds) > 1
        if not clash:
            continue
        for n in lemmas:
            # a word of the same spelling where this one stands
            if others or any(n in w and s in w for w in words.values()) or s in names:
                new[n] = s + "_lem"
        left = {n: new[n] for n in olds}
        if len(set(left.values())) < len(left) or any(new[n] in names for n in olds):
            seen = set()
            for n in olds:
                if new[n] in seen or new[n] in names:
                    k = 2
                    while new[n] + "_%d" % k in names or new[n] + "_%d" % k in seen:
                        k += 1
                    new[n] += "_%d" % k
                seen.add(new[n])
        for n in others:
            if any(n in w and new[n] in w for w in words.values()):
                print("look: %s, %s: both stand in %s" % (n, new[n], [p for p, w in words.items() if n in w and new[n] in w][:3]))
    return new


def turned(text, new):
    return WORD.sub(lambda m: new.get(m.group(0), m.group(0)), text)


def turned_spans(text, new):
    return re.sub(r"`[^`\n]+`", lambda m: turned(m.group(0), new), text)


def turned_antt(text, new):
    """Code whole; comments: spans, and words with a capital in them."""
    camel = {n: s for n, s in new.items() if "-" not in n}
    out = []
    for line in text.split("\n"):
        m = re.search(r"(^|\s)--(\s|$)", line)
        at = m.start() if m else len(line)
        out.append(turned(line[:at], new) + turned(turned_spans(line[at:], new), camel))
    return "\n".join(out)


def main(argv):
    names, new = table()
    new = settled(names, new)
    new.update({n: s for n, s in OTHERS.items() if n in names})
    if argv:
        for n, s in sorted(new.items()):
            print(n, s)
        return 0
    camel = {n: s for n, s in new.items() if "-" not in n}
    for path in files("crates", ".antt", ".rt", ".edit"):
        text = read(path)
        if path.endswith(".edit"):
            lines = [turned(l, new) if l.startswith(("old:", "new:")) else turned(turned_spans(l, new), camel) for l in text.split("\n")]
            after = "\n".join(lines)
        elif path.endswith(".rt"):
            lines = []
            for line in text.split("\n"):
                m = re.search(r"(^|\s)//", line)
                at = m.start() if m else len(line)
                lines.append(turned(line[:at], new) + turned(turned_spans(line[at:], new), camel))
            after = "\n".join(lines)
        elif is_lemma_file(path):
            after = turned_antt(text, new)
        else:
            # A proof that walks the code declares goals of its own: only what it imports turns, and fields.
            brought = set()
            for m in re.finditer(r"\.\{([^}]*)\}", text):
                brought.update(w.strip().split(" as ")[0] for w in m.group(1).split(","))
            some = {n: s for n, s in new.items() if n in brought or "-" not in n}
            after = turned_antt(text, some)
            fields = {n: s for n, s in new.items() if n not in some}
            after = re.sub(r"(?<=[\w'\])])\.(" + WORD.pattern + ")", lambda m: "." + fields.get(m.group(1), m.group(1)), after)
            after = re.sub(r"(?m)^( +)(" + WORD.pattern + r")(?= = )", lambda m: m.group(1) + fields.get(m.group(2), m.group(2)), after)
        if after != text:
            with open(path, "w", encoding="utf-8") as f:
                f.write(after)
    pages = [p for p in files("docs", ".md")] + [p for p in ("README.md", "CONTRIBUTING.md") if os.path.exists(p)]
    for path in pages:
        text = read(path)
        after = turned_spans(text, new)
        if after != text:
            with open(path, "w", encoding="utf-8") as f:
                f.write(after)
    print("respell: %d names" % len(new))
    return 0


if __name__ == "__main__":
    raise SystemExit(main(sys.argv[1:]))
