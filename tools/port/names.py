#!/usr/bin/env python3
"""Brings the repository's own definitions and lemmas to Rattle's spelling: words of antt in snake case, as `truthyValue` and
`order-kept` to `truthy_value` and `order_kept`. Types, modules and names that begin with a capital stay.

usage: python3 tools/port/names.py [--check]     at the top of the repository, once, after port.py

It reads which names the files of specs/ and proofs/ declare, and turns those words in them, in the clauses and `ghost use` items of
src/, in must-fail edits and in the code spans of the pages. A name whose new spelling is taken already is shown and stays."""
import collections
import glob
import re
import sys

WORD = re.compile(r'[^\s(){}.;,@"«»`]+')
# lemmas in snake case already (port.py met a word of the library) whose name a definition now gets, by crate
MOVED = {("root", "units_of"), ("resolve", "by_itself")}


def snake(name):
    name = re.sub(r"(?<=[a-z0-9])(?=[A-Z])", "_", name) if re.search(r"[A-Z]", name) else name
    return name.replace("-", "_").lower() if not re.search(r"[^\x00-\x7f]", name) else name


def declared(text):
    for line in text.split("\n"):
        m = re.match(r'(?:abbrev |unfoldable )?(?:pub )?([^\s(){}.;,@"]+) :(?: |$)(.*)', line)
        if m and "tie." not in m.group(2):
            yield m.group(1)
        m = re.match(r'\s+(?:pub )?((?:[^\s(){}.;,@":]+ )+):(?: |$)', line)
        if m:
            yield from (w for w in m.group(1).split() if w not in ("pub", "where"))


def turns(name):
    return re.fullmatch(r"[a-z][A-Za-z0-9]*(?:-[A-Za-z0-9]+)*'*", name) and ("-" in name or re.search("[A-Z]", name))


def main():
    antt = glob.glob("crates/*/specs/**/*.antt", recursive=True) + glob.glob("crates/*/proofs/**/*.antt", recursive=True)
    sources = glob.glob("crates/*/src/**/*.rt", recursive=True)
    edits = glob.glob("crates/*/must-fail/*.edit")
    pages = ["README.md"] + glob.glob("docs/*.md") + glob.glob("docs/changes/*.md")
    texts = {p: open(p, encoding="utf-8").read() for p in antt + sources + edits + pages}
    own, used = set(), collections.defaultdict(set)
    for p in antt:
        own.update(declared(texts[p]))
    for p in antt + sources:
        for w in set(WORD.findall(texts[p])):
            used[w].add(p)
    table = {n: snake(n) for n in own if turns(n)}
    clash = collections.Counter(table.values())
    for n in sorted(table):
        new = table[n]
        meet = {p for p in used.get(new, ()) if p.endswith(".antt") and p in used[n] and "/" + new + "/" not in p}
        if "-" in n and (clash[new] > 1 or meet or new in own):
            # a lemma that would have its function's name
            table[n] = new + "_lem"
            print("lemma:", n, table[n])
        elif meet or (clash[new] > 1 and "-" in n):
            print("meets:", n, new, sorted(meet)[:3])
        elif new in own:
            print("stands elsewhere:", n, new)
    again = [n for n, k in collections.Counter(table.values()).items() if k > 1]
    print("fall together:", again)
    if "--check" in sys.argv:
        return
    for p, text in texts.items():
        if p.endswith(".md"):
            new = re.sub(r"`[^`\n]+`", lambda m: WORD.sub(lambda w: page(w.group(), table, own), m.group()), text)
        else:
            crate = p.split("/")[1]
            moved = lambda w: w + "_lem" if (crate, w) in MOVED else table.get(w, w)
            new = WORD.sub(lambda w: moved(w.group()), text)
        if new != text:
            open(p, "w", encoding="utf-8").write(new)


def page(word, table, own):
    if word in table:
        return table[word]
    return snake(word) if turns(word) and snake(word) in own else word


main()
