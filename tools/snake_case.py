#!/usr/bin/env python3
"""Brings the repository's own names in contracts, definitions and proofs from dashes to snake case.

usage: python3 tools/snake_case.py     at the top of the repository, once, right after port.py

A name is the repository's own if a line of specs/ or proofs/ declares it (a definition, a lemma, a field of a record,
a local function, a parameter). Names that the check makes for goals and steps, and names of the library, keep their dashes.
It stops, and writes nothing, where two names would fall together.
"""

import collections
import os
import re
import sys

NAME = r"[A-Za-z_][\w'′]*(?:-[\w'′]+)+"
TOKEN = re.compile(r"(?<![\w'′◌-])" + NAME + r"(?![\w'′◌-])")
PLAIN = re.compile(r"(?<![\w'′◌-])[A-Za-z_][\w'′]*(?![\w'′◌-])")
DECLARED = re.compile(r"^\s*(?:(?:pub|abbrev|unfoldable|opaque|ruleset|data|record|instance)\s+)*(" + NAME + r")\s*(?::(?!=)|=)", re.M)
PARAMETERS = re.compile(r"[({]((?:[\w'′-]+ )+): ")
# Names that a function of src/ has already in snake case, or a step of a proof.
APART = {
    "all-in-limits": "every_in_limits",
    "clocks-sound": "every_clock_sound",
    "every-run": "over_every_run",
    "first-fault": "fault_is_first",
    "first-line": "leading_line",
    "is-empty": "nothing_waits",
    "kind-of": "kind_named",
    "notices-in": "notices_over",
    "opening-refusal": "refusal_at_opening",
    "subscribers-good": "good_subscribers",
}
# Variables, and names that a `use` line gives.
LOCAL = """
anchor-outcomes mobile-outcomes station-outcomes mobile-heard mobile-timed station-timed by-ether by-priority by-queue own-rank
held-cause reference-is lost-is kept-is n-old n-new now-kept m-old m-new is-n c-there sound-two on-n on-m not-granted no-slots
ms-is listener-is links-on is-28 identity-is grant-is good-rest free-is count-is bare-all time-is range-c range-b not-n
next-length least-ranks
""".split()
GOAL = re.compile(r"^\s*(?:abbrev\s+)?(?:pub\s+)?(" + NAME + r")\s*:\s*goal\.", re.M)
USE = re.compile(r"^\s*(?:pub\s+)?(?:ghost\s+)?use\s+([\w.']+?)\.\{([^}]*)\}", re.M)


def files():
    for folder, dirs, names in os.walk("crates"):
        dirs[:] = sorted(d for d in dirs if d != "out")
        for name in sorted(names):
            if name.endswith((".antt", ".rt")):
                yield os.path.join(folder, name)


def main():
    own = {c for c in os.listdir("crates")}
    texts = {p: open(p, encoding="utf-8").read() for p in files()}
    declared, goals, foreign = collections.defaultdict(set), set(), collections.defaultdict(set)
    for p, t in texts.items():
        for path, names in USE.findall(t):
            root = path.split(".")
            if not (root[0] == "Rattle" and len(root) > 1 and root[1] in own):
                for n in names.split(","):
                    words = n.split()
                    if words and "-" in words[-1]:
                        foreign[words[-1]].add(p)
        if p.endswith(".antt"):
            here = set(GOAL.findall(t))
            goals |= here
            for n in DECLARED.findall(t):
                if n not in here:
                    declared[n].add(p)
            for words in PARAMETERS.findall(t):
                for n in words.split():
                    if "-" in n and n not in here:
                        declared[n].add(p)
    for n in LOCAL:
        declared[n].add("here")
    turned = {}
    for n in sorted(declared):
        if n in goals:
            print(f"snake_case: {n} is a goal's name too and stays")
        elif n in foreign:
            print(f"snake_case: {n} is imported from the library in {sorted(foreign[n])[:3]} and stays")
        else:
            turned[n] = APART.get(n, n.replace("-", "_"))
    bad = [(a, b) for a in turned for b in turned if a < b and turned[a] == turned[b]]
    plain = set()
    for p, t in texts.items():
        if p.endswith(".antt"):
            plain |= set(PLAIN.findall(t))
    together = sorted(n for n in turned if turned[n] in plain)
    for a, b in bad:
        print(f"snake_case: {a} and {b} would fall together")
    for n in together:
        print(f"snake_case: {n}: a name {turned[n]} is there already: {sorted(p for p, t in texts.items() if re.search(r'(?<![A-Za-z0-9_])' + turned[n] + r'(?![A-Za-z0-9_])', t))[:3]}")
    if bad or ("--anyway" not in sys.argv and together):
        return 1
    count = 0
    for p, t in texts.items():
        new = TOKEN.sub(lambda m: turned.get(m.group(0), m.group(0)), t)
        if new != t:
            count += 1
            with open(p, "w", encoding="utf-8") as f:
                f.write(new)
    print(f"snake_case: {len(turned)} names, {count} files")
    return 0


if __name__ == "__main__":
    raise SystemExit(main())
