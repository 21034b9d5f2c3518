#!/usr/bin/env python3
"""Brings this repository's own definitions, lemmas, fields and variables to snake case: wordOf becomes word_of, every-row-stays
becomes every_row_stays. A dash stays where it joins two names, as in length-take. Functions of src/, exported names, texts, inputs
and outputs keep their names.

usage: python3 tools/respell.py [--report]     at the top of the repository, once, after the kit's port.py
"""
import os
import re
import sys

WORD = re.compile(r"[A-Za-z_\u00b5\u03bc][A-Za-z0-9_'\u2032\u2080-\u2089\u2115-]*")
CAMEL = re.compile(r"^_?[a-z][A-Za-z0-9_'\u2080-\u2089]*[a-z0-9][A-Z]")
USE = re.compile(r"^\s*(?:ghost )?(?:pub )?use\s+([^;{]*?)(?:\.\{([^}]*)\})?(?:\s+as\s+(\S+?))?;?\s*$")

# Names of operations, where a dash joins them.
OPERATIONS = set("""length take drop append map flatten get get_or set any all cond add mul mod div sub pow suc zero reverse replicate
sum min max filter member distinct strict or and xor not eqb ltb leb bit""".split())

# Where two names would fall together, or with a function or a parameter of src/, the name that this one gets instead.
INSTEAD = {"setRoom": "sets_room", "setWords": "words_of_sets", "tableWords": "words_of_table",
           "cell-words": "all_cell_words", "column-words": "all_column_words", "header-word": "is_header_word",
           "few-sets": "few_sets", "joined-position": "position_of_joined", "joined-rows": "all_joined_rows",
           "words-room": "room_for_words"}
IN_FILE = {"definitions/proofs/TableWords.antt": {"row_count": "row_count_lem"}}


def crates(root):
    return sorted(c for c in os.listdir(os.path.join(root, "crates")) if os.path.isdir(os.path.join(root, "crates", c, "src")))


def files(root, *endings):
    for c in crates(root):
        for folder, dirs, names in os.walk(os.path.join(root, "crates", c)):
            dirs[:] = sorted(d for d in dirs if d not in ("out", "data"))
            for n in sorted(names):
                if n.endswith(endings):
                    yield os.path.join(folder, n)


def read(path):
    with open(path, encoding="utf-8") as f:
        return f.read()


def snake(part):
    s = re.sub(r"([a-z0-9])([A-Z])", r"\1_\2", part)
    return re.sub(r"([A-Z])", lambda m: m.group(1).lower(), s)


def lower_start(word):
    return word[:1].islower() or word[:1] == "_"


class Respelling:
    def __init__(self, root):
        self.root = root
        self.own = set(crates(root))
        self.fields = set()
        self.names = set(OPERATIONS)
        self.plain = set()
        self.functions = set()
        for p in files(root, ".rt"):
            self.functions.update(re.findall(r"\bfn (\w+)", read(p)))
        for p in files(root, ".antt"):
            self.declared(p)

    def declared(self, path):
        record = None
        for line in read(path).split("\n"):
            m = re.match(r"^(\s*)(?:abbrev )?(?:pub )?record\b", line)
            if m:
                record = len(m.group(1))
                continue
            if record is not None and line.strip():
                if len(line) - len(line.lstrip()) <= record:
                    record = None
                else:
                    f = re.match(r"^\s*(?:pub )?(\S+) :", line)
                    if f:
                        self.fields.add(f.group(1))
                    continue
            m = re.match(r"^\s*(?:abbrev |unfoldable )?(?:pub )?([^\s.]+) :", line)
            if m and lower_start(m.group(1)) and "-" not in m.group(1):
                self.plain.add(snake(m.group(1)))
            m = re.match(r"^\s*(?:abbrev |unfoldable )(?:pub )?(\S+) :", line)
            if m and "/specs/" in path and lower_start(m.group(1)) and "-" not in m.group(1):
                self.names.add(snake(m.group(1)))

    def turned(self, word):
        """The new spelling of one of our own names."""
        if word in INSTEAD:
            return INSTEAD[word]
        if not lower_start(word):
            return word
        prime = re.search(r"['\u2032\u2080-\u2089]*$", word).group(0)
        bare = word[: len(word) - len(prime)] if prime else word
        parts = [snake(x) for x in bare.split("-")]
        if any(not x for x in parts):
            return word
        groups = []
        i = 0
        while i < len(parts):
            for j in range(len(parts), i, -1):
                g = "_".join(parts[i:j])
                if g in self.names:
                    groups.append((g, True))
                    i = j
                    break
            else:
                groups.append((parts[i], False))
                i += 1
        out = groups[0][0]
        for (a, x), (b, y) in zip(groups, groups[1:]):
            out += ("-" if x and y else "_") + b
        if "-" in bare and out in self.plain:
            out += "_lem"
        return out + prime

    def outside(self, text):
        """Names of this file that come from elsewhere, and names that stand for generated modules."""
        out, generated = set(), set()
        for line in text.replace("\n    ", " ").split("\n"):
            m = USE.match(line)
            if not m:
                continue
            module, group, alias = m.group(1).strip(), m.group(2), m.group(3)
            parts = module.split(".")
            ours = parts[0] == "Rattle" and len(parts) > 1 and parts[1] in self.own
            made = ours and (len(parts) > 3 and parts[2] == "proofs" and parts[-1] in
                             ("Tie", "Statement", "Reads", "Kinds", "Given", "Goals", "Lts") or any("Lts" in x or x[:1] == "+" for x in parts))
            if alias and (made or not ours):
                generated.add(alias)
                out.add(alias)
            for item in (group or "").split(","):
                item = item.strip()
                if not item:
                    continue
                first, _, name = item.partition(" as ")
                if made or not ours:
                    out.add(first.strip())
                    if name.strip():
                        out.add(name.strip())
        return out, generated

    def respell(self, text, outside, generated, rust=False, path=""):
        lines = []
        self.walk = path.endswith("/Proof.antt")
        for end, names in IN_FILE.items():
            if path.endswith(end):
                for a, b in names.items():
                    text = re.sub(r"(?<![\w.'-])" + a + r"(?![\w'-])", b, text)
        for line in text.split("\n"):
            comment = line.lstrip().startswith(("--", "//"))
            if rust and not comment:
                lines.append(self.rust_line(line))
                continue
            out, at = [], 0
            spans = [(m.start(), m.end()) for m in re.finditer(r'"[^"]*"', line)] if not comment else []
            for m in WORD.finditer(line):
                w = m.group(0)
                if any(a <= m.start() < b for a, b in spans):
                    continue
                new = self.word(w, line, m, outside, generated, comment)
                if new != w:
                    out.append(line[at:m.start()])
                    out.append(new)
                    at = m.end()
            out.append(line[at:])
            lines.append("".join(out))
        return "\n".join(lines)

    def word(self, w, line, m, outside, generated, comment):
        before = line[: m.start()]
        if comment:
            return self.turned(w) if CAMEL.match(w) and w not in outside else w
        if "-" not in w and not CAMEL.match(w) and w not in INSTEAD:
            return w
        if before.endswith("."):
            owner = re.search(r"([^\s().,{}]+)\.$", before)
            path = re.search(r"(Rattle|mathlib|Prim|native|lib|borrow|denote|specs)(\.[^\s.{}]+)*\.$", before)
            if path:
                return w
            if owner and owner.group(1) in generated:
                return w
            if self.walk and re.sub(r"_\d+$", "", w.replace("-", "_")) in self.functions:
                return w
            if w in self.fields:
                return self.turned(w)
            if CAMEL.match(w) and "-" not in w:
                return self.turned(w)
            return w
        if w in outside:
            return w
        return self.turned(w)

    def rust_line(self, line):
        def turn(m):
            w = m.group(0)
            return self.turned(w) if CAMEL.match(w) and "-" not in w else w
        out, at = [], 0
        spans = [(m.start(), m.end()) for m in re.finditer(r'b?"[^"]*"', line)]
        for m in re.finditer(r"[A-Za-z_][A-Za-z0-9_']*", line):
            if any(a <= m.start() < b for a, b in spans):
                continue
            new = turn(m)
            if new != m.group(0):
                out.append(line[at:m.start()] + new)
                at = m.end()
        return "".join(out) + line[at:]


def main():
    root = os.getcwd()
    r = Respelling(root)
    report = "--report" in sys.argv[1:]
    together = {}
    whole = {}
    for p in list(files(root, ".antt", ".rt")) + list(files(root, ".edit")):
        text = read(p)
        if p.endswith(".edit"):
            target = re.search(r"^file: (\S+)", text, re.M).group(1)
            target = os.path.join(os.path.dirname(os.path.dirname(p)), target)
            about = read(target) if os.path.exists(target) else ""
            new = r.respell(text, *r.outside(about), rust=target.endswith(".rt"))
        else:
            new = r.respell(text, *r.outside(text), rust=p.endswith(".rt"), path=p)
        old_words, new_words = WORD.findall(text), WORD.findall(new)
        if len(old_words) == len(new_words):
            seen = {}
            for a, b in zip(old_words, new_words):
                if a != b:
                    whole[a] = b
                seen.setdefault(b, set()).add(a)
            for b, a in seen.items():
                if len(a) > 1:
                    together.setdefault((b, tuple(sorted(a))), []).append(os.path.relpath(p, root))
        else:
            print("look:", os.path.relpath(p, root), "other count of words")
        if not report and new != text:
            with open(p, "w", encoding="utf-8") as f:
                f.write(new)
    for (b, a), where in sorted(together.items()):
        print("together:", b, "from", ", ".join(a), "in", ", ".join(where[:4]))
    if report:
        for a in sorted(whole):
            print("name:", a, whole[a])
    print("names turned:", len(whole))


main()
