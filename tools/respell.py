#!/usr/bin/env python3
"""Brings this repository's own names of definitions, lemmas and modules of laws to Rattle's spelling: words in snake case, modules in camel case.

usage: tools/respell.py [--list]        at the top of the repository, once, after the kit's own script for older repositories
       tools/respell.py --proofs        what a function's Proof.antt names for itself; Rattle's own names there stay

A word in mixed case is written in snake case (rowRadius: row_radius). A dash stays where it joins the names of two definitions
(length-list_to) and is an underscore elsewhere (row_narrow), in a field always. A folder of laws below proofs/ gets the capital of
a module (proofs/Laws/Showing). Names of src/, exported names, strings, inputs and outputs stay. --list prints the names and writes
nothing.
"""
import os
import re
import subprocess
import sys

TOKEN = re.compile(r"--[^\n]*|//[^\n]*|\"(?:[^\"\\\n]|\\.)*\"|[^\s(){}\[\].;,@\"«»\\`]+")
NAME = re.compile(r"[A-Za-z][A-Za-z0-9_']*(?:-[A-Za-z0-9_']+)*\Z")
DECLARED = re.compile(r"^([ \t]*)((?:(?:pub|abbrev|unfoldable|ruleset)[ \t]+)*)([^\s:(){}\[\],;.]+)[ \t]*:(?=\s|$)", re.M)
BOUND = re.compile(r"\blet[ \t]+([^\s:(){}\[\],;.=]+)(?=[ \t]*[:=])|λ[ \t]*([^.(){}\n]+)\.|\((\S+(?: \S+)*?) : ")
PARTS = {"getD": "get_or"}


def read(path):
    with open(path, encoding="utf-8", newline="") as f:
        return f.read()


def write(path, text):
    with open(path, "w", encoding="utf-8", newline="") as f:
        f.write(text)


def files():
    out = subprocess.run(["git", "ls-files", "-z"], capture_output=True, check=True).stdout.decode().split("\0")
    return [f for f in out if f and os.path.isfile(f)]


def is_proof(path):
    return os.path.basename(path) == "Proof.antt"


def snake(word):
    if not re.match(r"[a-z]", word):
        return word
    word = PARTS.get(word, word)
    return re.sub(r"(?<=[a-z0-9'])([A-Z])", lambda m: "_" + m[1].lower(), word)


def imported(text):
    """The names that a file takes from other libraries than this repository's."""
    names = set()
    for path, group in re.findall(r"^(?:pub |ghost )*use (\S+?)\.\{([^}]*)\}", text, re.M):
        if not OWN_PATH.match(path):
            names |= {n.split(" as ")[-1].strip() for n in group.split(",")}
    return names


def in_proof(text):
    """A function's proof with its own names in snake case: the parts and laws that it declares, and what it binds."""
    code = re.sub(r"--[^\n]*", "", text)
    own = {m[3] for m in DECLARED.finditer(code)}
    for a, b, c in BOUND.findall(code):
        own |= set((a or b or c).split())
    words = set(TOKEN.findall(text))
    new = {}
    for name in sorted(n for n in own if NAME.match(n) and re.match(r"[a-z]", n)):
        to = snake(name).replace("-", "_")
        if to != name and to in words:
            print("together: %s is %s_lem" % (name, to))
            to += "_lem"
        if to != name:
            new[name] = to

    def one(m):
        is_read = text[: m.start()].endswith(".") and not text[: m.start()].endswith("λ.")
        return m[0] if is_read else new.get(m[0], m[0])

    return TOKEN.sub(one, text)


def main():
    global OWN_PATH
    every = files()
    if "--proofs" in sys.argv:
        for f in every:
            if is_proof(f):
                write(f, in_proof(read(f)))
        return
    crates = sorted({f.split("/")[1] for f in every if re.match(r"crates/[^/]+/src/", f)})
    OWN_PATH = re.compile(r"Rattle\.(%s)\." % "|".join(map(re.escape, crates)))
    antt = [f for f in every if f.endswith(".antt") and f.startswith("crates/")]
    rt = [f for f in every if f.endswith(".rt") and f.startswith("crates/")]
    edits = [f for f in every if f.endswith(".edit")]
    pages = [f for f in every if f.endswith(".md") and not os.path.basename(f).startswith("PORT")]
    texts = {f: read(f) for f in antt + rt + edits + pages}

    foreign = set().union(*(imported(texts[f]) for f in antt + rt))
    tops, fields, bound = set(), set(), set()
    definitions = set(foreign)
    for f in antt:
        code = re.sub(r"--[^\n]*", "", texts[f])
        in_record = False
        for line in code.split("\n"):
            if re.match(r"\S", line):
                in_record = bool(re.match(r"(pub )?record ", line))
            m = DECLARED.match(line)
            if not m or not NAME.match(m[3]):
                continue
            if is_proof(f) and re.search(r":\s*(abbrev )?tie\.", line):
                continue
            (fields if in_record and m[1] else tops).add(m[3])
            if "/specs/" in f and not (in_record and m[1]):
                definitions.add(m[3])
        if not is_proof(f):
            for a, b, c in BOUND.findall(code):
                bound |= {n for n in (a or b or c).split() if NAME.match(n)}
    mixed = {n for n in tops | fields | bound if re.match(r"[a-z]", n) and re.search(r"[A-Z]", n)} - foreign
    dashed = {n for n in tops | fields | bound if "-" in n} - foreign

    def spelled(name):
        parts = name.split("-")
        out = snake(parts[0])
        for before, part in zip(parts, parts[1:]):
            joins = name not in fields and before in definitions and part in definitions
            out += ("-" if joins else "_") + snake(part)
        return out

    new = {n: spelled(n) for n in sorted(mixed | dashed)}
    # Where two names fall together, a definition has the plain one, a lemma adds _lem, and a stated field _fact.
    known = tops | fields | foreign
    back = {}
    for a, b in new.items():
        back.setdefault(b, []).append(a)
    for b, olds in sorted(back.items()):
        olds = sorted(olds + ([b] if b in known and b not in new else []), key=lambda n: (n not in definitions or n in fields, n in dashed, n))
        for other in olds[1:]:
            new[other] = b + ("_fact" if other in fields else "_lem")
            print("together: %s keeps %s, %s is %s" % (olds[0], b, other, new[other]))
    new = {a: b for a, b in new.items() if a != b}
    if "--list" in sys.argv:
        for a, b in sorted(new.items()):
            print("%s -> %s" % (a, b))
        return

    after = {new.get(n, n) for n in known | definitions}

    # the folders of laws
    moved = {}
    for f in antt:
        m = re.match(r"crates/([^/]+)/proofs/(?:(.*)/)?(\w+)\.antt\Z", f)
        if not m:
            continue
        above = [s for s in (m[2] or "").split("/") if s and s != "Lib"]
        if m[3] == "Lib":
            above = []
        else:
            above.append(m[3])
        for name in re.findall(r"^\s*(?:pub )?mod ([a-z]\w*)$", texts[f], re.M):
            moved[(m[1], ".".join(above + [name]))] = name[0].upper() + re.sub(r"_(\w)", lambda x: x[1].upper(), name[1:])

    def path_of(crate, module):
        out, sofar = [], []
        for part in module.split("."):
            sofar.append(part)
            out.append(moved.get((crate, ".".join(sofar)), part))
        return ".".join(out)

    def turned(f, text):
        local = {}
        if is_proof(f):
            code = re.sub(r"--[^\n]*", "", text)
            mine = {m[3] for m in DECLARED.finditer(code) if NAME.match(m[3])}
            of_tie = {m[1] for m in re.finditer(r"^(?:abbrev )?(?:pub )?(\S+) : tie\.", code, re.M)}
            used = {n.strip() for p, g in re.findall(r"^use (\S+?)\.\{([^}]*)\}", code, re.M) if OWN_PATH.match(p) for n in g.split(",")}
            local = {n for n in used | (mine - of_tie)}
        have = set(TOKEN.findall(text))
        for word in sorted(have):
            if word in new and new[word] in have and new[word] not in new:
                print("look: %s has %s and %s" % (f, word, new[word]))

        def one(m):
            word, at = m[0], m.start()
            if word.startswith('"'):
                return word
            if word.startswith(("--", "//")):
                return re.sub(r"[A-Za-z][A-Za-z0-9_']*", lambda w: new[w[0]] if w[0] in mixed and w[0] in new else w[0], word)
            if word not in new:
                # An edit or a page may still have a name that the kit's script has turned.
                late = f.endswith((".edit", ".md")) and re.match(r"[a-z]+\w*[A-Z]", word) and snake(word) in after
                return snake(word) if late and (f.endswith(".edit") or re.search(r"`[^`\n]*\Z", text[max(0, at - 60) : at])) else word
            before = text[max(0, at - 60) : at]
            projected = before.endswith(".") and not before.endswith("..")
            if projected and word not in fields:
                head = re.search(r"([^\s(){}\[\].;,]+)\.\Z", before)
                if not (head and re.match(r"[A-Z]", head[1])):
                    return word
            if is_proof(f) and "-" in word and not projected and word not in local:
                return word
            if word not in mixed and word not in dashed and f.endswith(".rt"):
                return word
            if f.endswith(".md") and not re.search(r"`[^`\n]*\Z", before):
                return word
            return new[word]

        text = TOKEN.sub(one, text)

        def path(m):
            return "Rattle.%s.proofs.%s" % (m[1], path_of(m[1], m[2]))

        text = re.sub(r"Rattle\.(\w+)\.proofs\.(\w+(?:\.\w+)*)", path, text)
        m = re.match(r"crates/([^/]+)/proofs/", f)
        if m and f.endswith(".antt"):
            text = re.sub(r"^(\s*(?:pub )?mod )([a-z]\w*)$", lambda x: x[1] + x[2][0].upper() + x[2][1:], text, flags=re.M)
        return text

    for f, text in texts.items():
        now = turned(f, text)
        if now != text:
            write(f, now)
    # the longest paths first, so that a folder is moved after what lies in it
    for crate, module in sorted(moved, key=lambda k: -k[1].count(".")):
        parts = module.split(".")
        folder = "crates/%s/proofs/%s" % (crate, "/".join(parts[:-1]))
        for old, to in ((parts[-1], moved[(crate, module)]), (parts[-1] + ".antt", moved[(crate, module)] + ".antt")):
            if os.path.exists(os.path.join(folder, old)):
                subprocess.run(["git", "mv", os.path.join(folder, old), os.path.join(folder, to)], check=True)
    for crate in crates:
        subprocess.run(["rt", "fmt"], cwd=os.path.join("crates", crate), stdout=subprocess.DEVNULL, stderr=subprocess.DEVNULL)

if __name__ == "__main__":
    main()
