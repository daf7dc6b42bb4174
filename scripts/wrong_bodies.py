#!/usr/bin/env python3
"""Tries the wrong bodies that the gate doesn't: the prover must refuse each edit of crates/NAME/wrong-bodies.

    python3 scripts/wrong_bodies.py NAME ..            those of these crates
    python3 scripts/wrong_bodies.py --since COMMIT     those of the crates whose src, specs, proofs or wrong-bodies changed since
    python3 scripts/wrong_bodies.py --all              those of all crates
    .. --named-too                                     with any of these: those of must-fail, which the gate tries, as well

It copies the crates to a temporary folder, puts the edits where `rt must-fail` looks for them, and runs that there, over what
checks kept of the crates, here or in another checkout of this machine. A crate that isn't proved here as it stands is checked
first, which may take a whole proof: of one that isn't proved, a refusal says nothing. What was refused once isn't tried again
before something changes.

It prints a line an edit once all were tried, how many were refused, the processor seconds, and a row for docs/MEASUREMENTS.md:
the day, the commit, the crates, the number of edits, the seconds. The exit status is 1 where an edit isn't refused or can't be
tried, and where its refusal says little of the contract: it came of a limit of the prover, or of a proof file that names what the
edit took away.
"""
import argparse
import datetime
import os
import pathlib
import re
import shutil
import signal
import subprocess
import sys
import tempfile

sys.dont_write_bytecode = True
from calibration import kit, used

ROOT = pathlib.Path(__file__).resolve().parent.parent
OWN = ("src", "specs", "proofs", "wrong-bodies")

# How the kit says that a refusal says little.
WEAK = ("(only by a limit", "(only because a proof file names")


def git(*words):
    ran = subprocess.run(["git", *words], cwd=ROOT, capture_output=True, text=True)
    if ran.returncode:
        raise SystemExit(f"git {' '.join(words)}: {ran.stderr.strip()}")
    return ran.stdout.split("\n")[:-1]


def edits_in(folder):
    return sorted(folder.glob("*.edit")) if folder.is_dir() else []


def with_edits(named_too):
    """The names of the crates that have wrong bodies to try."""
    folders = [it for it in sorted((ROOT / "crates").iterdir()) if it.is_dir()]
    kinds = ("wrong-bodies", "must-fail") if named_too else ("wrong-bodies",)
    return [it.name for it in folders if any(edits_in(it / kind) for kind in kinds)]


def changed_since(commit, named_too):
    """The names of the crates with a file of their own that isn't as it was in that commit, new files included."""
    files = git("diff", "--name-only", "--no-renames", commit, "--", "crates")
    files += git("ls-files", "--others", "--exclude-standard", "--", "crates")
    own = (*OWN, "must-fail") if named_too else OWN
    return {it.split("/")[1] for it in files if it.count("/") > 2 and it.split("/")[2] in own}


def chosen(words):
    """The names of the crates that are asked for."""
    there = with_edits(words.named_too)
    if words.all:
        return there
    if words.since:
        changed = changed_since(words.since, words.named_too)
        return [it for it in there if it in changed]
    lacking = [it for it in words.names if it not in there]
    if lacking:
        raise SystemExit(f"there are no wrong bodies of {', '.join(lacking)}")
    return sorted(set(words.names))


def copy_crates(room, names, named_too):
    """Makes a repository of the crates in the folder, with the edits of those with these names where `rt must-fail` looks."""
    (room / ".git").mkdir()
    top = str(ROOT / "crates")
    leaves_out = lambda folder, _: ["out"] if os.path.dirname(folder) == top else []
    shutil.copytree(top, room / "crates", ignore=leaves_out, symlinks=True)
    for name in ("crates.txt", "HANDLES"):
        shutil.copyfile(ROOT / name, room / name)
    for name in names:
        named, others = room / "crates" / name / "must-fail", room / "crates" / name / "wrong-bodies"
        if not named_too:
            shutil.rmtree(named, ignore_errors=True)
        named.mkdir(exist_ok=True)
        for file in sorted(others.iterdir()) if others.is_dir() else []:
            if (named / file.name).exists():
                raise SystemExit(f"{name} has an edit {file.name} both in must-fail and in wrong-bodies: rename one")
            file.rename(named / file.name)


def link(one, other):
    """Gives a file a second name, or copies it: the kit replaces such files, and writes into none."""
    try:
        os.link(one, other)
    except OSError:
        shutil.copy2(one, other)


def link_what_was_proved(one, other):
    """As `link`, but a check may write into other files of its work than what was proved."""
    (link if one.endswith(".oantt") else shutil.copy2)(one, other)


def take(folder, to, how):
    """Copies a folder of another's out/, which a check may be changing: whether that went well."""
    try:
        shutil.copytree(folder, to, copy_function=how)
        return True
    except (OSError, shutil.Error):
        shutil.rmtree(to, ignore_errors=True)
        return False


def take_library(here, there):
    """Takes the library that this checkout built of the same files: whether there is one."""
    from_, to = pathlib.Path(here.folder, "out/rlib"), pathlib.Path(there.folder, "out/rlib")
    if not here.is_built() or not take(from_, to, link):
        return False
    # a build removes all first, and writes the stamp last
    if here.is_built() and there.is_built():
        return True
    shutil.rmtree(to, ignore_errors=True)
    return False


def take_kept(room, names):
    """Takes libraries and the work of checks from this checkout: the crates of these names that are proved as they stand."""
    parts, proved = kit(), set()
    here = {it.name: it for it in parts.crates_below(str(ROOT))}
    there = {it.name: it for it in parts.crates_below(str(room))}
    unlisted = [it for it in names if it not in there]
    if unlisted:
        raise SystemExit(f"no line of crates.txt names {' '.join(unlisted)}")
    wanted = {below.name for it in names for below in [*there[it].below(), there[it]]}
    for name in sorted(wanted & set(here), key=lambda it: len(there[it].below())):
        if take_library(here[name], there[name]):
            proved.add(name)
    for name in names:
        work = pathlib.Path(here[name].folder, "out/incremental") if name in here else None
        if work and work.is_dir():
            take(work, pathlib.Path(there[name].folder, "out/incremental"), link_what_was_proved)
    missing = [it for it in sorted(wanted) if it not in proved]
    if missing:
        print(f"Not proved in this checkout as they stand, so each may take a whole proof first: {' '.join(missing)}", flush=True)
    return [it for it in names if it in proved]


def rt(room, words, folder="."):
    """Runs a command of the kit in the copy, with all that it writes below it: its status, and what it said."""
    (room / "temporary").mkdir(exist_ok=True)
    how = {"cwd": room / folder, "env": {**os.environ, "TMPDIR": str(room / "temporary")}, "stdin": subprocess.DEVNULL}
    ran = subprocess.run(["rt", *words], stdout=subprocess.PIPE, stderr=subprocess.STDOUT, text=True, errors="replace", **how)
    return ran.returncode, ran.stdout


def proved_first(room, names, proved):
    """Those of the crates that are proved, where the others are checked now."""
    well = []
    for name in names:
        status, said = (0, "") if name in proved else rt(room, ["check"], f"crates/{name}")
        if status:
            print(f"{said}{name} is not proved, so its wrong bodies were not tried", flush=True)
        else:
            well.append(name)
    return well


def results(room, names, said):
    """What was said of each edit, and whether that is a refusal that says something of the contract."""
    told = dict(re.findall(r"^rt: must-fail (\S+?/\S+?\.edit): (.*)$", said, re.M))
    misnamed = re.findall(r"^rt: .*crates/(\w+)/must-fail/(.+): (BAD EDIT: .*)$", said, re.M)
    told.update({f"{crate}/{file}": why for crate, file, why in misnamed})
    rows = []
    for name in names:
        for file in sorted((room / "crates" / name / "must-fail").iterdir()):
            text = told.get(f"{name}/{file.name}", "NOT TRIED: the kit said nothing of it")
            is_refused = text.startswith("refused") and not any(it in text for it in WEAK)
            rows += [(f"{name}/{file.name}", text, is_refused)] if file.suffix != ".md" else []
    return rows


def tell(rows, said):
    """Prints what the kit said beside the edits, or all of it where it said nothing of an edit, and a line an edit."""
    is_silent = any(text.startswith("NOT TRIED: the kit said nothing") for _, text, _ in rows)
    for line in said.split("\n"):
        if is_silent or line.startswith("rt: ") and not re.match(r"rt: (must-fail |.*BAD EDIT)", line):
            print(line)
    for key, text, is_refused in rows:
        print(f"{'refused' if is_refused else 'FAILED '}  {key}  {text.partition(': ')[2] if is_refused else text}"[:400])


def commit():
    try:
        return git("rev-parse", "--short", "HEAD")[0] + ("+changes" if git("status", "--porcelain") else "")
    except SystemExit:
        return "no commit"


def try_edits(room, words, names):
    """Tries the edits of these crates in the copy, and prints what came of it: whether all were refused."""
    at, day = commit(), datetime.date.today()
    copy_crates(room, names, words.named_too)
    files = [file for it in names for file in (room / "crates" / it / "must-fail").iterdir()]
    number = sum(it.suffix != ".md" for it in files)
    print(f"Trying {number} wrong bodies of {len(names)} crates; what they come to is told at the end.", flush=True)
    well = proved_first(room, names, take_kept(room, names))
    status, said = rt(room, ["must-fail", *well]) if well else (0, "")
    rows = results(room, well, said)
    tell(rows, said)
    before = sum(int(it) for it in re.findall(r"^rt: \w+: (\d+) of its \d+ must-fail edits were tried", said, re.M))
    refused = sum(it for _, _, it in rows)
    print(f"{refused} refused, {number - refused} failed; {used():.0f} processor seconds")
    of = "all" if words.all else " ".join(names)
    print(f"| {day} | {at} | {of} | {number}{f' ({before} before)' if before else ''} | {used():.0f} |")
    if status and refused == number:
        print(f"and yet rt must-fail ended with status {status}")
    return refused == number and not status


def main():
    asks = argparse.ArgumentParser(description=__doc__.split("\n")[0])
    asks.add_argument("names", nargs="*", metavar="NAME")
    asks.add_argument("--since", metavar="COMMIT")
    asks.add_argument("--all", action="store_true")
    asks.add_argument("--named-too", action="store_true")
    words = asks.parse_args()
    if bool(words.names) + bool(words.since) + words.all != 1:
        asks.error("names of crates, --since COMMIT or --all are asked for")
    names = chosen(words)
    if not names:
        print("No crate with wrong bodies has changed.")
        return 0
    # so that the folder is removed, and what runs is ended
    for it in (signal.SIGTERM, signal.SIGHUP, signal.SIGINT):
        signal.signal(it, lambda number, _: sys.exit(128 + number))
    room = pathlib.Path(tempfile.mkdtemp(prefix="wrong-bodies-"))
    try:
        return 0 if try_edits(room, words, names) else 1
    finally:
        shutil.rmtree(room, ignore_errors=True)


if __name__ == "__main__":
    sys.exit(main())
