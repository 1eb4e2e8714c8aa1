#!/usr/bin/env python3
"""Tries the edits of crates/NAME/edits/*.edit (the form of must-fail edits): the prover must refuse each. An edit whose name begins with
`control_` changes nothing that is promised, and must be proved.

  tools/try_edits.py [--folder edits] [NAME..]      --folder more: those that the gate leaves out; of the crates named, else of all

They are tried in a copy of the tree where they stand in crates/NAME/must-fail. Of all crates by `rt ci`, which takes the crates that an earlier `rt ci`
passed as proved, and keeps what it says of an edit for as long as the crate and those below it stay the same. Of crates that are named by `rt check`
in each as it stands and then `rt must-fail`, each edit over what these checks proved.
Here the other way round, a control that is `NOT REFUSED` is as it must be. Not as they must be are, beside edits that are still proved, those that are only
refused because a proof file names what the edit took away, those that the prover only meets a limit of its own at, those that can't be applied or read (BAD
EDIT), and those of which nothing is known (NOT TRIED). What rt says is in target/edits/FOLDER.log, for tools/check_edits.py. The last line counts; the exit
status is 0 where every edit is as it must be.
"""
import argparse
import glob
import os
import re
import shutil
import subprocess
import sys
import tempfile

sys.dont_write_bytecode = True
from check_edits import TOP, is_refused, verdicts  # noqa: E402


def logged(log, words, folder):
    """Runs a command with what it says in a file, and returns its status."""
    os.makedirs(os.path.dirname(log), exist_ok=True)
    with open(log, "w", encoding="utf-8") as out:
        return subprocess.run(words, cwd=folder, stdin=subprocess.DEVNULL, stdout=out, stderr=subprocess.STDOUT).returncode


def text_of(path):
    with open(path, encoding="utf-8", errors="replace") as file:
        return file.read()


def unproved(names):
    """What is wrong with the crates as they stand, or nothing."""
    log = os.path.join(TOP, "target", "log", "unedited.txt")
    for name in names:
        if logged(log, ["rt", "check"], os.path.join(TOP, "crates", name)):
            return f"{name}: unedited not proved:\n{text_of(log)[-1500:]}"
    return None


def copied(base, found):
    """A copy of the tree, in which these edits are the must-fail edits."""
    room = os.path.join(base, "repository")
    os.mkdir(room)
    for name in ("crates.txt", "HANDLES"):
        if os.path.exists(os.path.join(TOP, name)):
            shutil.copy(os.path.join(TOP, name), room)
    shutil.copytree(os.path.join(TOP, "crates"), os.path.join(room, "crates"), ignore=shutil.ignore_patterns("out", "must-fail", "edits", "more"))
    for (name, _), edit in found.items():
        folder = os.path.join(room, "crates", name, "must-fail")
        os.makedirs(folder, exist_ok=True)
        shutil.copy(edit, folder)
    return room


def judged(label, words):
    """Whether an edit met what it must."""
    return words.startswith("NOT REFUSED") if label.startswith("control_") else is_refused(words)


def main():
    words = argparse.ArgumentParser(usage=__doc__)
    words.add_argument("--folder", default="edits")
    words.add_argument("names", nargs="*")
    given = words.parse_args()
    edits = sorted(glob.glob(os.path.join(TOP, "crates", "*", given.folder, "*.edit")))
    found = {(edit.split(os.sep)[-3], os.path.basename(edit)[: -len(".edit")]): edit for edit in edits}
    found = {key: edit for key, edit in found.items() if not given.names or key[0] in given.names}
    names = sorted({name for name, _ in found})
    if not found:
        sys.exit(f"there are no edits in crates/*/{given.folder} of {' '.join(given.names) or 'any crate'}")
    wrong = unproved(names) if given.names else None
    if wrong:
        sys.exit(wrong)
    log = os.path.join(TOP, "target", "edits", f"{given.folder}.log")
    with tempfile.TemporaryDirectory(prefix="edits-") as base:
        logged(log, ["rt", "must-fail", *names] if given.names else ["rt", "ci"], copied(base, found))
    said = text_of(log)
    of, good = verdicts(said), 0
    for (name, label), edit in found.items():
        says = of.get((name, label), "nothing was said of it")
        as_it_must_be = judged(label, says)
        good += as_it_must_be
        print(f"{name}/{label}: {'' if as_it_must_be else 'NOT AS IT MUST BE: '}{says[:200]}")
    for line in re.findall(r"^rt: (\w+: (?:the check that its must-fail edits begin with did not end well).*)$", said, re.M):
        print(line)
        good -= 1
    if good < len(found):
        print(said[-1500:] if not of else f"(target/edits/{given.folder}.log)")
    print(f"edits: {good} as they must be, {len(found) - good} not")
    sys.exit(0 if good == len(found) else 1)


if __name__ == "__main__":
    main()
