#!/usr/bin/env python3
"""In the answers that tools/answers.py wrote: names the records of places that have a wrapping in Goals as they stand in Lts.

usage: python3 tools/places.py NAMES GENERATED CRATE [FUNCTION..]

GENERATED is the folder that `rt check --generated GENERATED` wrote for the crate, with the answers in place.
"""

import json
import os
import re
import sys


def main():
    names, generated, crate = sys.argv[1:4]
    facts = json.load(open(names, encoding="utf-8"))
    name = os.path.basename(crate.rstrip("/"))
    for folder, dirs, files in sorted(os.walk(os.path.join(crate, "proofs"))):
        if "Answers.antt" not in files:
            continue
        path = os.path.relpath(folder, os.path.join(crate, "proofs"))
        if len(sys.argv) > 4 and path not in sys.argv[4:]:
            continue
        f = facts.get(f"Rattle-{name}-proofs.{path.replace('/', '.')}.Lts")
        goals = os.path.join(generated, f"Rattle-{name}-proofs", path, "Goals.antt")
        module = f"Rattle.{name}.proofs.{path.replace('/', '.')}"
        file = os.path.join(folder, "Answers.antt")
        text = open(file, encoding="utf-8").read()
        m = re.search(r"(?m)^use " + re.escape(module) + r"\.Goals\.\{([^}]*)\}\n", text)
        if not f or not m:
            continue
        if not os.path.exists(goals):
            print(f"{path}: no Goals")
            continue
        made = open(goals, encoding="utf-8").read()
        old = {n: p[0] for n, p in zip(f["places_by_name"], f["places"])}
        keep, own = [], []
        for place in m.group(1).split(", "):
            d = re.search(r"(?m)^abbrev pub " + re.escape(place) + r" : Type 0\n" + re.escape(place) + r" =\s+(\S+)((?:\s+\S+)*?)\n\n", made)
            if not d or not d.group(1).startswith("View.In-"):
                keep.append(place)
                if not d and place in old:
                    print(f"{path}: {place} is not in Goals")
                continue
            args = " ".join(re.sub(r"^(the-(?:invariant|decreases)-.*)$", r"goal.\1", a) for a in d.group(2).split())
            own.append(f"abbrev {place} : Type 0\n{place} = Lts.{old[place]} {args}")
        if not own:
            continue
        line = f"use {module}.Goals.{{{', '.join(keep)}}}\n" if keep else ""
        line += "".join(f"use {module}.{part}\n" for part in ("Lts", "Reads", "Tie"))
        text = text[:m.start()] + line + text[m.end():]
        uses = list(re.finditer(r"(?m)^use [^\n]*\n", text))[-1].end()
        text = text[:uses] + "\n-- what is known at the places that the lemmas below are about\n" + "\n\n".join(own) + "\n" + text[uses:]
        open(file, "w", encoding="utf-8").write(text)


main()
