#!/usr/bin/env python3
"""Turns proof files of the older form, proofs/F/Proof.antt, to Invariants.antt and Answers.antt.

usage: python3 tools/port/answers.py CRATE NAMES     at the top of the repository

NAMES is the file that `rt check --generated DIR --old-names` wrote for the crate, DIR/names.json. Answers that are only `search rules` go, since the
check tries that itself. What can't be turned is printed, and stands as a comment in the answers' file."""
import glob
import json
import os
import re
import sys


def plain(name):
    return re.sub(r"[-_]", "", re.sub(r"_lem$", "", name))


WORD = r'[^\s(){}.;,@"\[\]|]+'


def clauses(crate):
    """For each function's path: the names of its requires and of its ensures, in order."""
    found = {}
    for p in glob.glob(f"crates/{crate}/src/**/*.rt", recursive=True):
        module = os.path.relpath(p, f"crates/{crate}/src")[:-3].replace("/", "::")
        at = "" if module in ("lib", "main") else module + "::"
        if module.endswith("::mod"):
            at = module[:-3]
        text = open(p, encoding="utf-8").read()
        kind = ""
        for m in re.finditer(r"^impl (\w+)|^\}|^ *(?:pub )?(?:extern \"C\" )?fn (\w+)|^ +(requires|ensures)(?: (\w+))? \{", text, re.M):
            if m.group(1):
                kind = m.group(1) + "::"
            elif m.group(2):
                fn = f"{crate}::{at}{kind if m.group(0).startswith(' ') else ''}{m.group(2)}"
                found[fn] = {"requires": [], "ensures": []}
            elif m.group(3):
                found[fn][m.group(3)].append(m.group(4))
            elif m.group(0) == "}":
                kind = ""
    return found


class Fn:
    def __init__(self, crate, key, names, known):
        self.crate, self.names, self.known = crate, names, known
        self.places = {p[0]: (i, p) for i, p in enumerate(names["places"])}
        self.asked = names["asked_at"]
        self.needs = {}
        for i, (old, new) in enumerate(names["needs"]):
            self.needs[plain(old)] = (new, self.asked[i] if i < len(self.asked) else None)

    def chain(self, place):
        out = []
        while place is not None:
            i, p = self.places[place]
            out.append(i)
            place = p[1]
        return out  # own place first

    def clause(self, fn, kind, rest):
        """`.1.1.0.x` of joined clauses as `.name.x`."""
        names = self.known.get(fn, {}).get(kind, [])
        if len(names) < 2:
            return rest
        j = 0
        while j < len(names) - 1 and rest and rest[0] == "1":
            rest, j = rest[1:], j + 1
        if j < len(names) - 1:
            if not rest or rest[0] != "0":
                return rest if rest and rest[0] in names else None
            rest = rest[1:]
        return [names[j], *rest]

    def path(self, place, fn, parts):
        """A path below `c` at a place, or None."""
        chain = self.chain(place)
        n = 0
        while n < len(parts) and parts[n] == "before":
            n += 1
        rest = parts[n:]
        if not rest:
            return None
        if rest[0] in ("args", "ranges", "requires", "well_formed", "well-formed"):
            if rest[0] == "requires":
                tail = self.clause(fn, "requires", rest[1:])
                return None if tail is None else ["requires", *tail]
            return [rest[0].replace("-", "_"), *rest[1:]]
        order = chain[n:] + list(reversed(chain[:n]))
        # what an arm gives
        for i in order:
            arm = self.names["arms"][i]
            if not arm:
                continue
            for field, step, old in arm[2]:
                if field.endswith("-own") or plain(step) != plain(rest[0]):
                    continue
                if [plain(x) for x in rest[1 : 1 + len(old)]] == [plain(x) for x in old]:
                    # the longest arm of that name on the way
                    return [arm[0], field, *rest[1 + len(old) :]]
        for i in order:
            p = self.names["places"][i]
            if p[2][0] and plain(p[2][0]) == plain(rest[0]):
                tail = rest[1:]
                if tail and tail[0] == "ensures" and p[3]:
                    more = self.clause(p[3], "ensures", tail[1:])
                    if more is None:
                        return None
                    tail = ["ensures", *more]
                return [p[2][1], *tail]
        return None

    def turned(self, text, place, fn, need):
        """The text of an answer with today's paths, and what could not be turned."""
        bad = []
        # names for `c` some steps back
        aliases = {"c": []}
        for m in re.finditer(rf"\blet ({WORD}) = (c(?:\.before)+) in\n? *", text):
            aliases[m.group(1)] = m.group(2).split(".")[1:]
        text = re.sub(rf"\blet ({WORD}) = (c(?:\.before)+) in\n? *", "", text)
        # a step with a name of its own: `let l = c.before.loop in`
        def one(m):
            head = m.group(1)
            if head not in aliases:
                return m.group(0)
            parts = aliases[head] + m.group(2).split(".")[1:]
            if all(p == "before" for p in parts):
                chain = self.chain(place)
                if len(parts) < len(chain):
                    at = self.names["places_by_name"][chain[len(parts)]]
                    bad.append(m.group(0) + " is the place " + at)
                    return f"(goal.at.{need} c).{at}" if need else m.group(0)
                bad.append(m.group(0))
                return m.group(0)
            got = self.path(place, fn, parts)
            if got is None:
                bad.append(m.group(0))
                return m.group(0)
            return "c." + ".".join(got)

        heads = "|".join(re.escape(a) for a in aliases)
        text = re.sub(rf"(?<![^\s(){{}},;\[\]|=])({heads})((?:\.{WORD})+)", one, text)
        return text, bad


def blocks(text):
    """The file's declarations: (name, type, text)."""
    out, cur = [], []
    for line in text.split("\n"):
        if line and not line[0].isspace() and not line.startswith("unfolding") and cur and not (cur[-1] and re.match(rf"(?:abbrev |pub |unfoldable )*({WORD}) ", line) and re.match(rf"(?:abbrev |pub |unfoldable )*({WORD}) ", line).group(1) == name_of(cur)):
            out.append(cur)
            cur = []
        cur.append(line)
    out.append(cur)
    return out


def name_of(lines):
    for l in lines:
        m = re.match(rf"(?:abbrev |pub |unfoldable )*({WORD}) :", l)
        if m:
            return m.group(1)
    return None


def main(crate, file):
    names = json.load(open(file))
    known = {}
    for c in os.listdir("crates"):
        known.update(clauses(c))
    for key, it in names.items():
        m = re.match(rf"Rattle-{crate}-proofs\.(.*)\.Lts$", key)
        if not m:
            continue
        path = m.group(1).split(".")
        folder = f"crates/{crate}/proofs/" + "/".join(path)
        file = folder + "/Proof.antt"
        if not os.path.exists(file):
            continue
        fn_name = f"{crate}::" + "::".join(path)
        text = open(file, encoding="utf-8").read()
        if "tie.close" not in text:
            print("by hand:", file)
            continue
        fn = Fn(crate, key, it, known)
        head, uses, inv, ans, helpers, left = [], [], [], [], [], []
        for b in blocks(text):
            body = "\n".join(b).rstrip()
            if not body:
                continue
            if b[0].startswith("--"):
                head.append(body)
                continue
            if b[0].startswith("use "):
                if not re.search(r"Statement\.|\.Tie as", body):
                    uses.append(body)
                continue
            lead = []
            while b and b[0].startswith("--"):
                lead.append(b.pop(0))
            name = name_of(b)
            if name is None:
                left.append(body)
                continue
            sig = next(l for l in b if re.match(rf"(?:abbrev |pub |unfoldable )*{re.escape(name)} :", l))
            if "tie.close" in body or re.search(r"→ statement", sig):
                continue
            m = re.search(r": tie\.(Need-|invariant-|decreases-)(\S+)", sig)
            if not m:
                m2 = re.search(rf"\((\S+) : tie\.({WORD})(?: invariant-{WORD}| decreases-{WORD})*\)", body)
                place = next((q for q in fn.places if m2 and plain(q) == plain(m2.group(2))), None)
                if place and m2.group(1) == "c":
                    new = it["places_by_name"][fn.places[place][0]]
                    text, bad = fn.turned(body.replace(m2.group(0), "(c : goal." + new + ")"), place, fn_name, None)
                    helpers.append("".join(f"-- unturned: {x}\n" for x in bad) + text)
                elif re.search(r"tie\.(\S+)", body):
                    left.append(body)
                else:
                    helpers.append(body)
                continue
            which, old = m.groups()
            if which != "Need-":
                loop = next((l for l in it["loops"] if plain(l[0][0]) == plain(old)), None)
                index = next((i for i, l in enumerate(it["loops"]) if plain(l[0][0]) == plain(old)), None)
                if loop is None:
                    left.append(body)
                    continue
                new, variables = loop[0][1], loop[1]
                changed = it["changed"][index]
                rest = "\n".join(b[b.index(sig) + 1 :]).strip("\n")
                unf = ""
                if rest.startswith("unfolding"):
                    unf, rest = rest.split("\n", 1)
                m = re.match(rf"{re.escape(name)} ([^=]*?) ?=(?=\s)(.*)", rest, re.S)
                params, value = m.group(1).split(), m.group(2)
                n = len(variables)
                table = {}
                for i, p in enumerate(params):
                    if i < n:
                        table[p] = ("l.initial." if changed[i] else "l.") + variables[i]
                    else:
                        again = [v for v, ch in zip(variables, changed) if ch]
                        table[p] = "l." + again[i - n] if i - n < len(again) else "?" + p
                value = re.sub(WORD, lambda w: table.get(w.group(), w.group()) if w.start() == 0 or value[w.start() - 1] != "." else w.group(), value)
                which = {"invariant-": "invariant", "decreases-": "decreases"}[which]
                inv.append(f"abbrev pub {which}-{new} : goal.{which}-{new}\n" + (unf + "\n" if unf else "") + f"{which}-{new} l ={value.rstrip()}")
                continue
            old = re.sub(r"^overflow-", "", old)
            got = fn.needs.get(plain(old))
            rest = "\n".join(b[b.index(sig) + 1 :]).strip("\n")
            unf = ""
            if rest.startswith("unfolding"):
                unf, rest = rest.split("\n", 1)
            m = re.match(rf"{re.escape(name)}((?: {WORD})*) =(?=\s)(.*)", rest, re.S)
            if not m:
                left.append(body)
                continue
            params, value = m.group(1).split(), m.group(2)
            if value.strip() in ("search rules", "search (rules)") and not unf:
                continue
            if got is None and old.startswith("nonzero"):
                continue
            if got is None or got[1] is None:
                left.append(body)
                continue
            new, at = got
            value, bad = fn.turned(value, at[0], fn_name, new)
            params = [p for p in params if p != "κs"]
            note = "".join(f"-- unturned: {x}\n" for x in bad)
            ans.append((new, note + f"pub {new} : goal.{new}\n" + (unf + "\n" if unf else "") + f"{new} {' '.join(params)} ={value.rstrip()}"))
        module = f"Rattle.{crate}.proofs." + ".".join(path)
        if inv:
            with open(folder + "/Invariants.antt", "w", encoding="utf-8") as out:
                out.write("\n".join([*head, *uses, f"use {module}.Given as goal"]) + "\n\n" + "\n\n".join([*[h for h in helpers if used(h, inv)], *inv]) + "\n")
        if ans or helpers:
            texts = [t for _, t in ans]
            with open(folder + "/Answers.antt", "w", encoding="utf-8") as out:
                out.write("\n".join([*head, *uses, f"use {module}.Goals as goal"]) + "\n\n" + "\n\n".join([*helpers, *texts]) + "\n")
        if left:
            print(f"left: {file}: {len(left)}")
            with open(folder + "/Left.txt", "w", encoding="utf-8") as out:
                out.write("\n\n".join(left) + "\n")
        os.remove(file)


def used(helper, invariants):
    name = name_of(helper.split("\n"))
    return name and any(re.search(rf"(?<![^\s(){{}},;]){re.escape(name)}(?![^\s(){{}},;.])", i) for i in invariants)


main(*sys.argv[1:])
