#!/usr/bin/env python3
"""Says why each edit of crates/*/must-fail and crates/*/edits was refused, from what `rt ci` and tools/try_edits.py said of them: target/log/ci.txt,
which .ci/run writes, and target/edits/edits.log.

  tools/check_edits.py [--list] [--more]      --more: those of crates/*/more, which the gate leaves out, after tools/try_edits.py --folder more

An edit counts only where a fact fails: something that the edited crate has to prove and that doesn't hold (controls, which must be proved, aside). Where the
proof as it stands no longer fits the code (a step that has another name now, a name that isn't there), where the edit can't be applied or read, or where the
prover only meets a limit of its own, the refusal shows nothing. The exit status is 0 where something was said of every edit of the repository, and the first
complaint is a fact that fails. --list prints the complaints.
"""
import collections
import glob
import os
import re
import sys

TOP = os.path.dirname(os.path.dirname(os.path.abspath(__file__)))
LOGS = {"must-fail": "target/log/ci.txt", "edits": "target/edits/edits.log", "more": "target/edits/more.log"}
# The prover's words of a goal that isn't reached, by what was tried on it.
FACTS = {
    "two sides of an equation or two types differ": r"the two (?:types|sides|indices)|one side reads|≟|expected type|does not have the type|the types differ|is not the type",
    "no arithmetic proof": r"`omega`|`simp`|`ring`",
    "no proof found": r"`search`: no proof|`cc`|no proof of|`grind`",
    "a rewriting that leaves something to prove": r"give a proof of that as the last argument|write the equation.s arguments|`rw`",
    "a need that is not proved": r"^it is not proved that",
}
# What a place of the proof is about.
PLACES = [
    ("what the function promises", r"`(?:returns|ensures|\S*-spec)\S*`|it is not proved that what the function ensures"),
    ("an invariant or a measure of a loop", r"`loop\S*`"),
    ("what a called function asks", r"`\S*-requires\S*`|it is not proved that what `\S+` requires"),
    ("that a number or a part of a slice fits", r"`(?:overflow|bounds|add|sub|mul|div|rem|cast|index|part|neg|narrow|slice)\S*`|it is not proved that (?!what)"),
    ("a lemma or a theorem", r""),
]


def verdicts(said):
    """{(crate, label): rt's words} of the edits that a run of rt ci or rt must-fail tried."""
    return {(crate, label): words for crate, label, words in re.findall(r"^rt: must-fail (\w+)/([\w.-]+)\.edit: (.*)$", said, re.M)}


def is_refused(words):
    """Whether the prover refused the edit and gave a verdict."""
    return words.startswith("refused, as it must be") and "(only because a proof file names" not in words and "(only by a limit of the prover" not in words


def complaint(words):
    """The first thing the prover said against the crate."""
    found = re.match(r"refused, as it must be: (?:note: )?\S+?:\d+:\d+: (?:error: )?(.*)", words)
    return found[1] if found else ""


def said_in(log):
    path = os.path.join(TOP, log)
    return verdicts(open(path, encoding="utf-8", errors="replace").read()) if os.path.exists(path) else {}


def main():
    tally, bad, named, listed = collections.Counter(), [], [], "--list" in sys.argv[1:]
    for folder in ("more",) if "--more" in sys.argv[1:] else ("must-fail", "edits"):
        said = said_in(LOGS[folder])
        for edit in sorted(glob.glob(os.path.join(TOP, "crates", "*", folder, "*.edit"))):
            crate, label = edit.split(os.sep)[-3], os.path.basename(edit)[: -len(".edit")]
            named.append((crate, label))
            if label.startswith("control_"):
                continue
            if (crate, label) not in said:
                bad.append(f"{crate}/{label}: nothing was said of it; run rt ci (.ci/run) and tools/try_edits.py first")
                continue
            words = said[crate, label]
            first = complaint(words)
            why = next((kind for kind, form in FACTS.items() if re.search(form, first)), None)
            what = next(place for place, form in PLACES if re.match(form, first))
            if listed:
                print(f"{crate}/{label}: {what}: {why}: {first[:200]}")
            if not is_refused(words) or why is None or re.search(r"that can be named from here|`tie\.Need-\S+: module|: record `", first):
                bad.append(f"{crate}/{label}: not refused by a fact: {words[:300]}")
            else:
                tally[what] += 1
    bad += [f"{crate}/{label}: stands in must-fail and in edits" for (crate, label), count in collections.Counter(named).items() if count > 1]
    for what, count in tally.most_common():
        print(f"{count} edits: {what}")
    print(f"{sum(tally.values())} of {sum(not label.startswith('control_') for _, label in named)} edits are refused because a fact fails")
    for line in bad:
        print(line)
    sys.exit(1 if bad or not named else 0)


if __name__ == "__main__":
    main()
