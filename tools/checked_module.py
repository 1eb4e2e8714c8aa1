#!/usr/bin/env python3
"""The compiler's module with its assumptions checked: LLVM text from standard input to standard output.

  tools/checked_module.py MIR..      the files toolchain/mir.json of the libraries whose functions the module may have

What was proved never to happen stops the program here: a sum, difference or product that doesn't fit, a narrower number that loses bits, a division by 0, a
shift by as many bits as there are or more, a value outside the `!range` that is said of what is read, a case that no arm of a `match` has. Every function
is marked for the address checks. Nothing else changes.

Sums, differences and products are no other in the module whether they are signed or not, or may wrap: that is in the proved module (MIR) of the libraries, in the
same order in each function. Where the two differ, this ends with status 1. The functions of `exports`, a static library, have no such file: they compute with
places and lengths alone, which are not signed. What stands before each of them for C (`wagonplan_raw_..`, the slice of a pointer and a length) computes an
address that may be null, and assumes nothing.
"""
import json
import re
import sys

STARTS = re.compile(r'define [^@]*@(?:"([^"]+)"|([\w.]+))\(')
BLOCK = re.compile(r'"?([\w.]+)"?:')
OPERATION = re.compile(r"  (%\S+) = (add|sub|mul) (i\d+) (\S+), (\S+)$")
NARROWED = re.compile(r"  (%\S+) = trunc (i\d+) (\S+) to (i\d+)$")
SHIFTED = re.compile(r"  %\S+ = (?:shl|lshr|ashr) (i(\d+)) \S+, (\S+)$")
READ = re.compile(r"  (%\S+) = load (i\d+), .*, !range (![0-9]+)")
RANGE = re.compile(r"(![0-9]+) = !\{i\d+ 0, i\d+ (\d+)\}$")
DIVIDED = re.compile(r"  %\S+ = [us](?:div|rem) (i\d+) \S+, (\S+)$")
OTHER = re.compile(r"= (?:add|sub|mul|shl|lshr|ashr|trunc|zext|uitofp|sitofp|udiv|sdiv|or|icmp) .*\b(?:nuw|nsw|exact|nneg|disjoint|samesign)\b|= fpto[us]i |llvm\.assume|llvm\.c[lt][tz]z[^(]*\([^)]*i1 true")
STOPS = """
define internal void @"stops where"(i1 %bad) alwaysinline nounwind {
  br i1 %bad, label %stop, label %go
stop:
  call void @llvm.trap()
  unreachable
go:
  ret void
}
"""


def operations(node, sums, narrow):
    """What a function's MIR computes, in its order: its sums, differences and products; and the widths to which a signed number is cast."""
    if isinstance(node, dict):
        for key, value in node.items():
            if key == "Op2" and isinstance(value[0], dict):
                (name, sign), *_ = value[0].items()
                if name in ("Add", "Sub", "Mul"):
                    sums.append((name.lower(), sign))
            elif key == "Op2" and str(value[0]).startswith("Wrap"):
                sums.append((value[0][len("Wrap"):].lower(), None))
            elif key == "Op1" and isinstance(value[0], dict) and "Cast" in value[0] and "Signed" in value[0]["Cast"][:2]:
                narrow.add(f"i{value[0]['Cast'][2]}")
            operations(value, sums, narrow)
    elif isinstance(node, list):
        for value in node:
            operations(value, sums, narrow)


class Function:
    """Of the function that is read: what its MIR computes, and how far that has been seen. A generic function has one MIR for all its instances, whose names
    end with what they are made at."""

    def __init__(self, name, mir):
        of = name if name in mir else re.sub(r"::<.*$", "", name)
        self.name, self.sums, self.signed, self.at, self.fills = name, [], set(), 0, False
        self.is_ours = name.startswith("exports::")
        self.is_known = of in mir or self.is_ours or name.startswith("wagonplan_raw_")
        self.has_mir = of in mir
        operations(mir.get(of), self.sums, self.signed)

    def sign(self, operator, line):
        """u, s, or nothing where it may wrap."""
        if not self.is_known:
            sys.exit(f"{self.name} has no MIR here: {line}")
        if not self.has_mir:
            return "u" if self.is_ours else ""
        name, sign = self.sums[self.at] if self.at < len(self.sums) else (None, None)
        if name != operator:
            sys.exit(f"{self.name} computes something else than its MIR: {line}")
        self.at += 1
        return sign[0].lower() if sign else ""

    def end(self):
        if self.at < len(self.sums):
            sys.exit(f"{self.name} computes less than its MIR")


def main():
    mir, wanted = {}, set()
    for path in sys.argv[1:]:
        with open(path, encoding="utf-8") as file:
            mir.update((name, function["body"]) for name, function in json.load(file))
    counts = {"sums, differences and products": 0, "narrowed": 0, "read": 0, "divisions": 0, "shifts": 0, "cases that are none": 0}
    text = sys.stdin.read()
    ranges = dict(found.groups() for found in map(RANGE.match, text.split("\n")) if found)
    stop = lambda name: print(f'  call void @"stops where"(i1 {name})')
    fresh = iter(range(10**9))
    function = None

    def counted(what):
        counts[what] += 1

    for line in text.split("\n"):
        if line.startswith("define"):
            function = Function(next(filter(None, STARTS.match(line).groups())), mir)
        elif line == "}" and function:
            function.end()
            function = None
        elif found := BLOCK.match(line):
            function.fills = found[1].startswith("repeat.")  # an array's elements, one after the other
        if OTHER.search(line):
            sys.exit(f"an assumption of another form: {line}")
        if (found := OPERATION.match(line)) and not function.fills:
            result, operator, kind, a, b = found.groups()
            if sign := function.sign(operator, line):
                pair, over = f"%pair.{next(fresh)}", f"%over.{next(fresh)}"
                intrinsic = f"llvm.{sign}{operator}.with.overflow.{kind}"
                wanted.add((intrinsic, kind))
                print(f"  {pair} = call {{ {kind}, i1 }} @{intrinsic}({kind} {a}, {kind} {b})")
                print(f"  {over} = extractvalue {{ {kind}, i1 }} {pair}, 1")
                stop(over)
                counted("sums, differences and products")
            print(line)
        elif (found := NARROWED.match(line)) and found[4] != "i1":
            result, wide, a, narrow = found.groups()
            if narrow in function.signed:
                sys.exit(f"{function.name} may narrow a signed number: {line}")
            back, other = f"%back.{next(fresh)}", f"%other.{next(fresh)}"
            print(line)
            print(f"  {back} = zext {narrow} {result} to {wide}")
            print(f"  {other} = icmp ne {wide} {back}, {a}")
            stop(other)
            counted("narrowed")
        elif line == "  unreachable":
            print("  call void @llvm.trap()\n  unreachable")
            counted("cases that are none")
        else:
            if found := DIVIDED.match(line):
                none = f"%none.{next(fresh)}"
                print(f"  {none} = icmp eq {found[1]} {found[2]}, 0")
                stop(none)
                counted("divisions")
            elif found := SHIFTED.match(line):
                far = f"%far.{next(fresh)}"
                print(f"  {far} = icmp uge {found[1]} {found[3]}, {found[2]}")
                stop(far)
                counted("shifts")
            line = re.sub(r", !range ![0-9]+", "", whole := line)
            print(re.sub(r"^attributes (#\d+) = \{ nounwind \"", r'attributes \1 = { nounwind sanitize_address "', line))
            if found := READ.match(whole):
                over = f"%over.{next(fresh)}"
                print(f"  {over} = icmp uge {found[2]} {found[1]}, {ranges[found[3]]}")
                stop(over)
                counted("read")
    print(STOPS)
    for intrinsic, kind in sorted(wanted):
        print(f"declare {{ {kind}, i1 }} @{intrinsic}({kind}, {kind})")
    if "@llvm.trap()" not in re.sub(r"call void @llvm\.trap\(\)", "", text):
        print("declare void @llvm.trap()")
    print("checked: " + ", ".join(f"{name} {count}" for name, count in counts.items()), file=sys.stderr)


if __name__ == "__main__":
    main()
