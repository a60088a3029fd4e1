#!/usr/bin/env python3
"""Brings the names of this repository's own definitions and lemmas to the spelling of today's Rattle: words in snake case.

usage: tools/respell.py        once, at the top of the repository, right after the toolchain's port.py

`minOf` is then `min_of`, and the lemma `passed-step` is `passed_step`. Left alone are the names of functions, of types and
modules, what the toolchain generates (`tie.Need-returns`), its library's names, strings, inputs and outputs. Two names that
would fall together are kept apart: a lemma or a field that would get a definition's name ends in `_holds`, and a definition
that would get the name of a field of src/ ends in `_of`. What port.py turned in .rt and .antt files is followed here in the
must-fail edits and in the pages, which it leaves. docs/PORT.md tells when it was run.
"""

import collections
import os
import re

WORD = r"[^\s(){}\[\].;,@\"«»\\:`|*]+"
NAME = re.compile(r"[A-Za-z_][\w'-]*$")
DECLARED = re.compile(rf"^\s*(?:(?:pub|abbrev|unfoldable|data|record|ruleset) )*({WORD})((?: {WORD})*)? :(?!:) ?(.*)")
IMPORT = re.compile(r"use ([\w.·+'-]+)\.\{([^}]*)\}")
GENERATED = re.compile(r"\.(Tie|Statement|Lts|Goals|Given|Met|Code|Reads|declared|contracts)(\.|$)")
FIELD = re.compile(r"(?m)^\s*(?:pub )?(\w+): [^=\n]*,?$")
PARAMETERS = re.compile(r"fn \w+(?:<[^>]*>)?\(([^{]*?)\)(?: ->|\s*\n|\s*\{)", re.S)

# Lemmas that port.py gave the name that a definition gets here: the name, and the crates that have it.
FOLLOW_PORT = {
    "distance_back": ["editions"],
    "record_of": ["nearest"],
    "long_of": ["report_meaning"],
    "pair_read": ["walk_meaning"],
    "goes_on": ["starred", "walk_meaning"],
    "step_by": ["walk_meaning"],
    "tidy_of": ["demand_3"],
}

# What port.py says that it turned ("a library had the same spelling").
TURNED_BY_PORT = """
absent-by add-at add-start add-total after-free ahead-none ahead-step alike-both all-above all-known all-of all-three all-yes
allowed-same and-both and-left and-no and-none and-right and-yes answerOf any-append any-none any-of apart-above apart-below at-1
at-5 at-7 at-8 at-9 at-in at-listed at-most back-one before-back before-more before-same below-all bitOf bits-fit block-of
block-same both-left both-right by-fits by-number by-place byte-put byteAt bytesOf calls-spec caseOf class-back code-is codeAt
codeOf codedBlock cond-yes copied-behind copy-done copy-spec copy-step count-at count-most count-none count-same counts-same
cut-below cut-in cut-of cutAt dataOf distance-back distance-is distanceAt distanceOf down-pos each-at each-bare each-member
either-order either-way end-back end-low endedOf ends-at ends-of ends-there entry-at entry-free entry-spec entry-whole entryOf
enum-told every-append every-get every-map failsOf few-bytes fields-value fieldsOf fill-done fill-none fill-spec fill-step filled-none
finish-spec first-alone first-more first-one first-some first-two firstOf fit-spec fitted-of form-of found-below found-first
found-here found-in found-none found-nothing foundFrom free-of freshOf from-all from-each from-end from-low from-more from-nothing
from-row from-step gathered-none goes-on groupOf held-high held-low held-next held-number high-is high-le highOf holdsOf imageOf
in-either in-field in-left in-order in-parts in-right in-row in-turns in-whole inTable inTurn inside-of is-cut isAt isOf kindOf known-same
last-of last-or later-same lay-done lay-step le-of le-trans least-more left-is left-over left-split length-digits liesAt
list-counted list-same listed-same listedAt listedOf listsOf long-of low-of lowOf lower-spec lowered-is lt-both lt-not lt-of
lt-trans markOf maxOf met-of move-tail-spec moved-back moved-length moved-value mul-at mul-wide namedAt namedOf nan-pattern
near-of neg-value no-more no-nan no-place no-row no-test noRow none-found none-in none-is none-left none-of none-open not-after not-found
not-lower number-is off-of on-test one-below one-each one-form one-from one-more one-number one-of one-up open-by openRows or-left
or-parts or-right or-swap over-none own-below pair-of pair-read pair-same part-apart part-none parts-add pass-spec passed-none
past-first piece-of place-end place-here place-none place-same placeOf plain-at plainOf planOf pointOf put-all put-spec put-step
raised-is rangeOf read-back readingOf record-of refused-none round-by row-at row-back row-drop row-in row-near row-of rowAt rowOf
rows-are rows-back rows-few rows-fit rows-same rowsOf same-length same-spec scale-same second-back second-from second-head secondOf
sets-behind sets-below sets-same settledOf share-part shareOf shared-of shared-same shares-of shift-none shifted-down shifted-up
shr-part signOf size-is slide-none slotAt slotOf so-far some-same spanOf spot-of spotOf startOf step-by step-fits step-of step-spec
stepOf stopped-by sub-at sub-held swap-spec swept-none table-same tableOf tail-at tail-step take-whole tests-same textOf tidy-of
to-high totalOf two-ends two-from u32At under-spec walk-refused walkOf whole-of widthOf within-more wordOf write-spec zero-field zero-in
zero-of
""".split()


def snake(name):
    name = name.replace("-", "_")
    if name[0].islower() or name[0] == "_":
        name = re.sub(r"([a-z0-9])([A-Z])", lambda it: it[1] + "_" + it[2].lower(), name)
    return name


def read(path):
    with open(path, encoding="utf-8", newline="") as it:
        return it.read()


def files(ending, top="crates"):
    for folder, below, names in os.walk(top):
        below[:] = sorted(it for it in below if it not in ("out", ".git", "target"))
        yield from (os.path.join(folder, it) for it in sorted(names) if it.endswith(ending))


def main():
    crates = sorted(os.listdir("crates"))
    own_path = re.compile(rf"Rattle\.({'|'.join(crates)})\.")
    declared, generated, fields, library = {"dialLow", "dialHigh"}, collections.defaultdict(set), set(), collections.defaultdict(set)
    for path in files(".antt"):
        in_record = False
        for line in read(path).split("\n"):
            if line.lstrip().startswith("--"):
                continue
            if re.match(r"\s*(?:abbrev |unfoldable )?(?:pub )?record ", line):
                in_record = True
                continue
            if not line.startswith(" "):
                in_record = False
            it = DECLARED.match(line)
            names = [it[1], *(it[2] or "").split()] if it else []
            if not names or any(not NAME.match(n) for n in names):
                continue
            for n in names:
                if re.match(r"tie\.(Need|invariant|decreases)", it[3]) or (path.endswith("/Proof.antt") and n.endswith("-spec")):
                    generated[path].add(n)
                else:
                    declared.add(n)
                    if in_record:
                        fields.add(n)
    in_source = set()
    for ending in (".antt", ".rt"):
        for path in files(ending):
            text = read(path)
            for module, names in IMPORT.findall(text):
                if module.startswith("Rattle."):
                    declared.update(a for a in re.findall(r" as ([a-z][\w']*)", names) if ending == ".antt")
                if own_path.match(module + ".") and not (GENERATED.search(module) and re.search(r"\.(proofs|declared|contracts)\.", module + ".")):
                    continue
                library[path].update(n.strip().split(" as ")[0] for n in names.split(","))
            if ending == ".rt":
                in_source.update(FIELD.findall(text))
                for parameters in PARAMETERS.findall(text):
                    in_source.update(re.findall(r"(?:mut )?(\w+): ", parameters))
    of_library = set().union(*library.values())
    table = {n: snake(n) for n in declared if snake(n) != n}
    camel = {table[n] for n in table if "-" not in n}
    kept = declared - set(table)
    for n in table:
        if "-" in n and (table[n] in camel or table[n] in kept or table[n] in of_library):
            table[n] += "_holds"
        elif "-" not in n and table[n] in in_source:
            table[n] += "" if table[n].endswith("_of") else "_of"
    back = collections.defaultdict(list)
    for n in declared:
        back[table.get(n, n)].append(n)
    follow = {f"{n}": set(c) for n, c in FOLLOW_PORT.items()}
    for name, names in sorted(back.items()):
        if len(names) > 1 and not set(names) & set(follow):
            print(f"fall together: {name}: {', '.join(sorted(names))}")
    by_port = {n: snake(n) for n in TURNED_BY_PORT}

    word = re.compile(rf"(--[^\n]*|//[^\n]*|b?\"(?:[^\"\\\n]|\\.)*\"|{WORD})")

    def turned(text, path, edit=False):
        """A text of antt or of a .rt file."""
        crate = path.split("/")[1]
        mine, others = generated[path], library[path]

        def name(token, before):
            if token in mine or token in others:
                return token
            if before.endswith("."):
                owner = re.search(r"([\w'+-]+)\.$", before)
                if token in fields or (owner and owner[1][0].isupper() and token in table) or (owner and owner[1] == "offered"):
                    return table.get(token, by_port.get(token, token) if edit else token)
                return token
            if crate in follow.get(token, ()) and path.endswith(".antt"):
                return token + "_holds"
            if token in table:
                return table[token]
            return by_port.get(token, token) if edit else token

        def each(it):
            token = it[0]
            if token.startswith(("--", "//")):
                return re.sub(r"`[^`]+`|[a-z]\w*[A-Z]\w*", lambda c: re.sub(WORD, lambda w: name(w[0], ""), c[0]), token)
            if '"' in token:
                return token
            return name(token, text[max(0, it.start() - 60) : it.start()])

        return word.sub(each, text)

    def put(path, text, before):
        if text != before:
            with open(path, "w", encoding="utf-8", newline="") as it:
                it.write(text)

    for ending in (".antt", ".rt"):
        for path in list(files(ending)):
            text = read(path)
            put(path, turned(text, path), text)
    for path in list(files(".edit")):
        text = read(path)
        lines, target = [], ""
        for line in text.split("\n"):
            if line.startswith("file: "):
                target = os.path.join(*path.split("/")[:2], line[6:].strip())
            elif line.startswith(("old: ", "new: ")) and (target.endswith(".antt") or re.search(r"ensures|requires|ghost use", line)):
                line = line[:5] + turned(line[5:], target, edit=True)
            lines.append(line)
        put(path, "\n".join(lines), text)
    every = {**by_port, **table}
    pages = [p for p in [*files(".md", "docs"), "README.md", "CONTRIBUTING.md"] if os.path.basename(p) != "PORT.md"]
    for path in pages:
        text = read(path)
        put(path, re.sub(r"`[^`\n]+`", lambda c: c[0] if "/" in c[0] or "--" in c[0] else re.sub(WORD, lambda w: every.get(w[0], w[0]), c[0]), text), text)
    print(f"{len(table)} names of {len(declared)} respelled")


main()
