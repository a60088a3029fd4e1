#!/usr/bin/env python3
"""Plants one mistake at a time (mutations.py) in a copy of the Rust, or of the driver's own part,
builds the driver against that copy and sees whether a run notices a difference.

    python3 compare/mutate.py [--rust] [--stub] [--unequal | --watts] [--only TEXT] [--from N] [--work DIR]
                              [--seed S] [--verdicts N] [--ceilings N] [--dials N] [--texts N] [--reports N]
                              [--airtimes N] [--censuses N] [--editions N] [--amendments N] [--walks N]
                              [--nearests N] [--check] [-v] [--report FILE]

Without --stub the library is linked (PAMUKLID_LIB_DIR); with --stub its place is taken by a second,
unchanged copy of the Rust, which measures how sharp the cases are without the library. --rust plants
the mistakes of the Rust's three files alone; --unequal those about two margins that differ, --watts those about
other 60 m power limits than 100 and 9.15, and both need the library. --check only sees that every old text occurs once.
--report writes the list with the result as a page for docs/. Nothing else is written outside DIR (by
default a temporary folder of its own, removed at the end). Exit 0: every mistake was noticed except
those that change nothing.
"""

import argparse
import os
import shutil
import subprocess
import sys
import tempfile
import time

sys.dont_write_bytecode = True
HERE = os.path.dirname(os.path.abspath(__file__))
sys.path.insert(0, HERE)

from mutations import MUTATIONS, UNEQUAL, WATTS

MODULE = "core/aetherd/src/regulatory"
RUST = ["mod.rs", "profile.rs", "occupancy.rs"]


def main():
    args = argparse.ArgumentParser()
    args.add_argument("--rust", action="store_true")
    args.add_argument("--stub", action="store_true")
    args.add_argument("--unequal", action="store_true")
    args.add_argument("--watts", action="store_true")
    args.add_argument("--only", default="")
    args.add_argument("--from", type=int, default=0, dest="start")
    args.add_argument("--work")
    args.add_argument("--seed", type=int, default=7)
    args.add_argument("--verdicts", type=int, default=400000)
    args.add_argument("--ceilings", type=int, default=40000)
    args.add_argument("--dials", type=int, default=40000)
    args.add_argument("--texts", type=int, default=200000)
    args.add_argument("--reports", type=int, default=100000)
    args.add_argument("--airtimes", type=int, default=20000)
    args.add_argument("--censuses", type=int, default=1000)
    args.add_argument("--editions", type=int, default=100000)
    args.add_argument("--amendments", type=int, default=50000)
    args.add_argument("--walks", type=int, default=20000)
    args.add_argument("--nearests", type=int, default=50000)
    args.add_argument("--check", action="store_true")
    args.add_argument("--report")
    args.add_argument("-v", action="store_true", dest="verbose")
    args = args.parse_args()
    default = os.path.join(HERE, "../../shared/docs/src")
    rust = os.path.abspath(os.environ.get("PAMUKLID_RUST_SRC", default))

    work = args.work or tempfile.mkdtemp(prefix="pamuklid-mutants-")
    try:
        code = plant_all(args, rust, os.path.abspath(work))
    finally:
        if not args.work:
            shutil.rmtree(work)
    sys.exit(code)


def plant_all(args, rust, work):
    # the two copies that the mistakes go into
    copy = os.path.join(work, "rust")
    driver = os.path.join(work, "compare")
    os.makedirs(os.path.join(copy, MODULE), exist_ok=True)
    skip = shutil.ignore_patterns("target")
    shutil.copytree(HERE, driver, dirs_exist_ok=True, ignore=skip)
    # the driver's dependency, at the same place beside it
    shutil.copytree(os.path.join(HERE, "../wrapper/rust"), os.path.join(work, "wrapper/rust"),
                    dirs_exist_ok=True, ignore=skip)
    place, text = {}, {}
    for name in RUST:
        place[name] = os.path.join(copy, MODULE, name)
        text[name] = open(os.path.join(rust, MODULE, name), encoding="utf-8").read()
    place["stub.rs"] = os.path.join(driver, "src/stub.rs")
    text["stub.rs"] = open(os.path.join(HERE, "src/stub.rs"), encoding="utf-8").read()
    os.makedirs(os.path.join(work, "own"), exist_ok=True)
    for name in ["expect.rs", "adapter.rs", "amendment.rs", "distance.rs", "edition.rs", "nearest.rs", "report.rs",
                 "airtime.rs", "sixty.rs", "walk.rs"]:
        place[name] = os.path.join(driver, "src", name)
        text[name] = open(os.path.join(HERE, "src", name), encoding="utf-8").read()
        put(os.path.join(work, "own", name), text[name])
    place["build.rs"] = os.path.join(driver, "build.rs")
    text["build.rs"] = open(os.path.join(HERE, "build.rs"), encoding="utf-8").read()
    for name in place:
        put(place[name], text[name])

    planted = UNEQUAL if args.unequal else WATTS if args.watts else MUTATIONS
    wrong = [m for m in planted if text[m[0]].count(m[1]) != 1 or m[1] == m[2]]
    for name, old, _, _ in wrong:
        print("not one place: %s: %r (%d times)" % (name, old, text[name].count(old)))
    if wrong:
        return 2
    if args.check:
        print("%d mistakes, each with one place" % len(planted))
        return 0

    env = dict(os.environ)
    env["PAMUKLID_RUST_SRC"] = copy
    env["PAMUKLID_STUB_SRC"] = rust
    env["PAMUKLID_STUB_OWN"] = os.path.join(work, "own")
    env.setdefault("PAMUKLID_LIB_DIR", os.path.abspath(os.path.join(HERE, "../target/staticlib")))
    env["CARGO_TARGET_DIR"] = os.path.join(work, "target")
    build = ["cargo", "build", "--offline", "--quiet", "--profile", "mutant", "-j", "1"]
    if args.stub:
        build += ["--features", "stub"]
    if args.unequal:
        build += ["--features", "unequal"]
    if args.watts:
        build += ["--features", "watts"]
    program = os.path.join(work, "target/mutant/pamuklid-compare")
    run = [program, "--brief", "--seed", str(args.seed), "--verdicts", str(args.verdicts),
           "--ceilings", str(args.ceilings), "--dials", str(args.dials), "--texts", str(args.texts),
           "--reports", str(args.reports), "--airtimes", str(args.airtimes),
           "--censuses", str(args.censuses), "--editions", str(args.editions),
           "--amendments", str(args.amendments), "--walks", str(args.walks),
           "--nearests", str(args.nearests)]

    def attempt():
        """(built, exit status, first line that says what)"""
        made = subprocess.run(build, cwd=driver, env=env, capture_output=True, text=True)
        if made.returncode != 0:
            return False, None, made.stderr
        try:
            ran = subprocess.run(run, capture_output=True, text=True, timeout=900)
        except subprocess.TimeoutExpired:
            return True, -1, "no end in 900 s"
        what = [line for line in ran.stdout.splitlines() if line.startswith("DIFFERENCE")]
        return True, ran.returncode, what[0] if what else (ran.stderr.strip().splitlines() or [""])[0]

    built, code, what = attempt()
    if not built or code != 0:
        print("without a mistake the run should be clean: exit %s\n%s" % (code, what))
        return 2

    noticed = same = 0
    survivors, surprises, broken, lines = [], [], [], []
    begun = time.time()
    for number, (name, old, new, why) in enumerate(planted):
        if number < args.start or args.only not in name + " " + old + " " + new:
            continue
        if name == "stub.rs" and not args.stub or args.rust and name not in RUST:
            continue
        put(place[name], text[name].replace(old, new))
        built, code, what = attempt()
        put(place[name], text[name])
        title = "%d %s: %s  ->  %s" % (number, name, short(old), short(new))
        if not built:
            broken.append(title + "\n" + what)
            state = "DOESN'T BUILD"
        elif code == 0 and why:
            same += 1
            state = "survives, as it should"
        elif code == 0:
            survivors.append(title)
            state = "SURVIVES"
        elif why:
            surprises.append(title + "\n" + what)
            state = "NOTICED, though it should change nothing"
        else:
            noticed += 1
            state = "noticed"
        told = what.split("): ", 1)[-1][:70] if state == "noticed" and what else why or ""
        lines.append((name, state, "| %d | `%s` | `%s` | %s%s |" % (
            number, cell(old), cell(new) or " ", state, told and ": " + cell(told))))
        if args.verbose or state not in ("noticed", "survives, as it should"):
            print("%s: %s%s" % (state, title, "  [%s]" % what if args.verbose and what else ""),
                  flush=True)
    summary = ("%d noticed, %d change nothing, %d survivors, %d surprises, %d don't build; %.0f s"
               % (noticed, same, len(survivors), len(surprises), len(broken), time.time() - begun))
    print(summary)
    if args.report:
        put(args.report, report(args, lines, summary))
    for title in survivors:
        print("survivor: " + title)
    for title in surprises + broken:
        print("look at: " + title)
    return 1 if survivors or surprises or broken else 0


def report(args, lines, summary):
    """The page: what was done, what changes nothing and why, and the list, file by file."""
    against = "a second copy of the Rust" if args.stub else "the proved library"
    out = ["# Mistakes planted", "",
           "One mistake at a time was planted in a copy of the Rust, or of the driver's own part; the "
           "driver was built with it and run beside %s, and had to notice a difference. Made by "
           "`python3 compare/mutate.py --report FILE` on %s: seed %d, the fixed cases and up to %d "
           "verdicts, %d ceilings, %d dial lists, the texts of %d figures and %d reports for each "
           "mistake, to the first difference." % (
               against, time.strftime("%Y-%m-%d", time.gmtime()), args.seed, args.verdicts,
               args.ceilings, args.dials, args.texts, args.reports),
           "", summary + ".", "",
           "`mod.rs`, `profile.rs` and `occupancy.rs` are the Rust: mistakes at the comparisons, the "
           "`find` and `any`, the sums and the early returns of `check`, `evaluate` and what it calls, "
           "`ceiling`, `safe_dials` and `khz`. The other files are the driver's own part, from "
           "documents 01 and 02. Long texts are cut here; `compare/mutations.py` has them whole.", "",
           "## Survivors, and why they change nothing", ""]
    table = ["| | old | new | result |", "|---|---|---|---|"]
    out += table + [line for _, state, line in lines if not state.startswith("noticed")]
    for file in dict.fromkeys(name for name, _, _ in lines):
        of = [(state, line) for name, state, line in lines if name == file]
        noticed = [line for state, line in of if state.startswith("noticed")]
        out += ["", "## %s: %d of %d noticed" % (file, len(noticed), len(of)), ""] + table + noticed
    return "\n".join(out) + "\n"


def put(path, text):
    with open(path, "w", encoding="utf-8") as out:
        out.write(text)


def cell(text):
    return short(text).replace("|", "\\|").replace("`", "'")


def short(text):
    text = " ".join(text.split())
    return text if len(text) <= 110 else text[:107] + "..."


if __name__ == "__main__":
    main()
