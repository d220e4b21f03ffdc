#!/usr/bin/env python3
"""The library's one module, freed of its processor: what ./tablets hands to the compiler for each of them.

    python3 tests/neutral.py MODULE.ll HEADER.h NEUTRAL.ll

MODULE.ll is the module as text, as the kit made it for x86-64. Three things in it name that processor: the lines `target datalayout` and
`target triple`, and the attribute "target-cpu". They are taken out, if they are just those known here. All else is left as it is, and
each line of it has to have a form that is known here to say the same on every processor with little-endian numbers and pointers of at
most 8 bytes:

- numbers are i1 to i64, and pairs of those from i8 on, each of which lies at a multiple of its size; memory is bytes, of a stated number
  and alignment, at offsets in bytes; the module's own are constants of bytes, by name;
- a pointer is only handed on, stored, loaded, and moved by bytes: none becomes a number, and no size or distance is asked of one.
  It may be compared with null. A place of its own for a pointer is only stored to and loaded from as a pointer, for on some processors it has under 8 bytes; and where
  a pointer lies in other memory nothing is read or written as a number;
- what is called is a function of the module, or memmove, memset, trap or ctpop, which counts the ones of a number;
- the functions for others are those that the header declares, with the parameters that it has there, and no attribute says how a
  caller has to widen them.

Otherwise it says why, and stops with 2. The last line says what was taken out.
"""

import re
import sys

LAYOUT = "e-m:e-p270:32:32-p271:32:32-p272:64:64-i64:64-i128:128-f80:128-n8:16:32:64-S128"
TRIPLE = "x86_64-unknown-linux-gnu"
PROCESSOR = '"target-cpu"="x86-64"'
# Attributes that may stay: the probe of a large frame's pages, which a back end makes in its own way or not at all, and what is
# said of every processor.
ATTRIBUTES = {'"probe-stack"="inline-asm"', '"stack-probe-size"="3072"', "nounwind", "nocallback", "nofree", "willreturn", "cold", "noreturn"}
ATTRIBUTES |= {"memory(argmem: readwrite)", "memory(argmem: write)", "memory(inaccessiblemem: write)", "memory(none)"}
ATTRIBUTES |= {"nosync", "speculatable", "nocreateundeforpoison"}
ATTRIBUTE = re.compile(r'"[^"]*"="[^"]*"|"[^"]*"|\w+\([^)]*\)|\S+')

INTRINSICS = {
    "llvm.memmove.p0.p0.i64": "void (ptr writeonly captures(none), ptr readonly captures(none), i64, i1 immarg)",
    "llvm.memset.p0.i64": "void (ptr writeonly captures(none), i8, i64, i1 immarg)",
    "llvm.trap": "void ()",
    "llvm.ctpop.i64": "i64 (i64)",
}

# The forms of a line in a function: N a type of numbers, P a pair of them, T one of numbers or a pointer, V a value, R a name, F a
# function, G a constant.
FORMS = """
R = alloca N, align D
R = alloca ptr, align 8
R = alloca [D x i8], align D
R = load T, ptr R, align DM
R = load P, ptr R, align D
store T V, ptr R, align D
store ptr G, ptr R, align D
R = getelementptr i8, ptr R, i64 V
R = getelementptr inbounds nuw i8, ptr R, i64 V
R = A N V, V
R = icmp C N V, V
R = icmp eq ptr R, null
R = extractvalue P R, D
R = zext N V to N
R = sext N V to N
R = trunc N V to N
R = trunc nuw N V to N
call void F(L)
R = call N F(L)
R = call P F(L)
br label R
br i1 V, label R, label R
switch N V, label R [
N V, label R
]
ret void
ret N V
ret P R
unreachable
"""
PARTS = {
    "N": r"i(?:1|8|16|32|64)",
    "P": r"\{ i(?:8|16|32|64), i(?:8|16|32|64) \}",
    "T": r"(?:i(?:8|16|32|64)|ptr)",
    "V": r"(?:%[\w.]+|-?\d+|true|false)",
    "R": r"%[\w.]+",
    "F": r'@(?:[\w.]+|"[\w.:]+")',
    "G": r"@static\.\d+",
    "D": r"\d+",
    "M": r"(?:, !range !\d+)?(?:, !noundef !\d+)?",
    "A": r"(?:add|sub|mul|shl)(?: nuw)?(?: nsw)?|(?:udiv|urem|lshr|and|or|xor)",
    "C": r"(?:eq|ne|ult|ule|ugt|uge|slt|sle|sgt|sge)",
    "L": r"(?:(?:ptr|i(?:1|8|16|32|64)) (?:%[\w.]+|-?\d+|true|false)(?:, (?!\)))?)*",
}


def pattern(form):
    """A form as a regular expression: capital letters stand for their parts."""
    spelled = "".join("(?:%s)" % PARTS[c] if c in PARTS else re.escape(c) for c in form)
    return re.compile(spelled + r"(?:\s*;.*)?$")


KNOWN = [pattern(form) for form in FORMS.strip().split("\n")]
DEFINED = re.compile(r'define (internal )?(?:noundef )?(?:zeroext |signext )?(\S+|\{ i\d+, i\d+ \}) (@(?:[\w.]+|"[\w.:]+"))\((.*)\) #\d+ \{$')
CONSTANT = re.compile(r'(@static\.\d+) = private unnamed_addr constant \[\d+ x i8\] (?:c"[^"]*"|zeroinitializer), align 1$')
DECLARED = re.compile(r"declare (\S+) @([\w.]+)(\(.*\)) #\d+$")
SIZES = {"i8": 1, "i16": 2, "i32": 4, "i64": 8, "ptr": 8}
C_TYPES = {"uint8_t": "i8", "uint16_t": "i16", "size_t": "i64", "uint32_t": "i32", "uint64_t": "i64"}


def stop(line, why):
    """Ends with a reason."""
    where = "line %d of the module" % line if line else "the module"
    print("neutral.py: %s: %s" % (where, why), file=sys.stderr)
    sys.exit(2)


# ---- the header's functions


def declared_in(header):
    """The functions that a header declares for the library, each with its parameters as types of the module."""
    found = {}
    for answer, name, parameters in re.findall(r"^(\w+) (\w+)\(([^;{)]*)\);", header, re.M):
        words = [re.sub(r"\bconst\b", "", parameter).split() for parameter in parameters.replace("*", " * ").split(",")]
        found["@" + name] = (C_TYPES[answer], ["ptr" if "*" in word else C_TYPES[word[0]] for word in words])
    return found


def held_to_header(line, name, answer, parameters, declared):
    """A function for others is one of the header's."""
    if name not in declared:
        stop(line, "%s is for others, and the header does not declare it" % name)
    types = re.sub(r" %\w+", "", parameters).split(", ")
    wanted = ["%s noundef" % kind for kind in declared[name][1]]
    if answer != declared[name][0] or types != wanted:
        stop(line, "%s is not as the header declares it: %s (%s)" % (name, answer, ", ".join(types)))


# ---- pointers in memory


class Memory:
    """What a function stores and loads, by the memory that it names and the offset in it."""

    def __init__(self):
        self.places, self.own, self.accesses = {}, set(), []

    def note(self, at, line):
        """Takes a line of the function in."""
        moved = re.match(r"(%[\w.]+) = getelementptr i8, ptr (%[\w.]+), i64 (\d+)$", line)
        access = re.match(r"(?:%[\w.]+ = load|store) (\w+)(?: (\S+))?, ptr (%[\w.]+),", line)
        pair = re.match(r"%[\w.]+ = load \{ (\w+), (\w+) \}, ptr (%[\w.]+),", line)
        if moved:
            base, offset = self.places.get(moved[2], (moved[2], 0))
            self.places[moved[1]] = (base, offset + int(moved[3]))
        if access:
            base, offset = self.places.get(access[3], (access[3], 0))
            self.accesses.append((at, base, offset, access[1]))
        if pair:
            base, offset = self.places.get(pair[3], (pair[3], 0))
            self.accesses.append((at, base, offset, pair[1]))
            self.accesses.append((at, base, offset + max(SIZES[pair[1]], SIZES[pair[2]]), pair[2]))
        if line.endswith(" = alloca ptr, align 8"):
            self.own.add(line.split()[0])
            return
        used = set(re.findall(r"%[\w.]+", line)) & self.own
        if used and not (access and access[1] == "ptr" and access[3] in used and access[2] not in used):
            stop(at, "a place for a pointer is used otherwise: %s" % line)

    def judge(self):
        """No number overlaps a pointer."""
        pointers = {(base, offset) for _, base, offset, kind in self.accesses if kind == "ptr"}
        for at, base, offset, kind in self.accesses:
            near = range(offset - 7, offset + SIZES[kind])
            if kind != "ptr" and any((base, place) in pointers for place in near):
                stop(at, "a number is read or written where a pointer lies")


# ---- the module


class Module:
    """The module's lines, judged one after the other; `out` is what stays of them."""

    def __init__(self, declared):
        self.declared, self.out, self.memory = declared, [], None
        self.functions, self.intrinsics, self.called, self.exported = set(), set(), {}, set()
        self.constants = set()
        self.taken = {"the layout": 0, "the triple": 0, PROCESSOR: 0}

    def take(self, at, line):
        """Judges a line, and keeps it or takes it out."""
        if self.memory is not None and line != "}":
            self.inside(at, line.strip())
        elif line == "}":
            self.memory.judge()
            self.memory = None
        elif line.startswith("target "):
            self.target(at, line)
            return
        elif line.startswith("attributes "):
            line = self.attributes(at, line)
        elif line.startswith("define "):
            self.define(at, line)
        elif line.startswith("declare "):
            self.declare(at, line)
        elif CONSTANT.match(line):
            self.constants.add(CONSTANT.match(line)[1])
        elif line and not re.match(r"; |source_filename = |!", line):
            stop(at, "it is not known here: %s" % line)
        self.out.append(line)

    def target(self, at, line):
        """A line that names the processor."""
        for what, known in (
            ("the layout", 'target datalayout = "%s"' % LAYOUT),
            ("the triple", 'target triple = "%s"' % TRIPLE),
        ):
            if line == known:
                self.taken[what] += 1
                return
        stop(at, "another processor or layout than those known here: %s" % line)

    def attributes(self, at, line):
        """A group of attributes, without the processor's."""
        inside = re.match(r"attributes #\d+ = \{ (.*) \}$", line)
        for word in ATTRIBUTE.findall(inside[1] if inside else line):
            if word == PROCESSOR:
                self.taken[PROCESSOR] += 1
            elif word not in ATTRIBUTES:
                stop(at, "an attribute that is not known here: %s" % word)
        return line.replace(PROCESSOR, "")

    def define(self, at, line):
        """The head of a function."""
        head = DEFINED.match(line)
        if not head:
            stop(at, "a function of a form that is not known here: %s" % line)
        self.functions.add(head[3])
        self.memory = Memory()
        if not head[1]:
            held_to_header(at, head[3], head[2], head[4], self.declared)
            self.exported.add(head[3])

    def declare(self, at, line):
        """A function that is not the module's own."""
        head = DECLARED.match(line)
        if not head or INTRINSICS.get(head[2]) != "%s %s" % (head[1], head[3]):
            stop(at, "a function of others that is not known here: %s" % line)
        self.intrinsics.add("@" + head[2])

    def inside(self, at, line):
        """A line of a function."""
        if not line or re.match(r"[\w.]+:(?:\s*;.*)?$", line):
            return
        if not any(form.match(line) for form in KNOWN):
            stop(at, "it has a form that is not known here: %s" % line)
        for name in re.findall(r'@(?:[\w.]+|"[\w.:]+")', line):
            self.called.setdefault(name, at)
        self.memory.note(at, line)

    def end(self):
        """What only the whole shows."""
        for name, at in self.called.items():
            if name not in self.functions | self.intrinsics | self.constants:
                stop(at, "%s is named, and is no function and no constant of the module" % name)
        for name in sorted(set(self.declared) - self.exported):
            stop(0, "%s is declared by the header, and is not in it" % name)
        for what, times in self.taken.items():
            if times != 1:
                stop(0, "%s stands in it %d times, not once" % (what, times))


def main():
    """Reads the module, and writes what stays."""
    if len(sys.argv) != 4:
        sys.exit("usage: neutral.py MODULE.ll HEADER.h NEUTRAL.ll")
    with open(sys.argv[2], encoding="utf-8") as file:
        module = Module(declared_in(file.read()))
    with open(sys.argv[1], encoding="utf-8") as file:
        for at, line in enumerate(file.read().split("\n"), 1):
            module.take(at, line)
    module.end()
    with open(sys.argv[3], "w", encoding="utf-8") as file:
        file.write("\n".join(module.out))
    print(
        "%d functions, %d of them the header's; taken out: %s" % (len(module.functions), len(module.exported), ", ".join(module.taken))
    )


if __name__ == "__main__":
    main()
