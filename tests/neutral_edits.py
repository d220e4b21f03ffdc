#!/usr/bin/env python3
"""Tests of tests/neutral.py: the module as it is passes, and each change that would say something else on another processor is refused
with its reason. The last line is 'N passed, M failed'.

    python3 tests/neutral_edits.py MODULE.ll HEADER.h
"""

import os
import re
import subprocess
import sys
import tempfile

NEUTRAL = os.path.join(os.path.dirname(os.path.abspath(__file__)), "neutral.py")
FORM = "it has a form that is not known here"
OTHERS = "a function of others that is not known here"
POINTER = "a place for a pointer is used otherwise"
NUMBER = "a number is read or written where a pointer lies"
MOVE = "call void @llvm.memmove.p0.p0.i64(ptr {0}, ptr {0}, i64 8, i1 false)".format(r"\2")
SLICE = r"((%\w+) = alloca \[16 x i8\], align 8\n(?:  call void @llvm.memset.*\n)?  store ptr .*)"

# What is changed, by the first place of a pattern that fits, and the reason.
EDITS = [
    ("another triple", r'(target triple = ")[^"]*', r"\1aarch64-unknown-linux-gnu", "another processor or layout"),
    ("another layout", r"(target datalayout = .*)S128", r"\1S64", "another processor or layout"),
    ("no layout", r"target datalayout = .*\n", "", "the layout stands in it 0 times"),
    ("two triples", r"(target triple = .*\n)", r"\1\1", "the triple stands in it 2 times"),
    ("another processor", r'"target-cpu"="x86-64"', '"target-cpu"="x86-64-v3"', "an attribute that is not known here"),
    ("features of a processor", r'(attributes #0 = \{ )', r'\1"target-features"="+avx" ', "an attribute that is not known here"),
    ("an aligned stack", r"(attributes #0 = \{ )", r"\1alignstack(16) ", "an attribute that is not known here"),
    ("a pointer made a number", r"= zext i8 (%\w+) to i64", r"= ptrtoint ptr \1 to i64", FORM),
    ("a number made a pointer", r"= load ptr, ptr (%\w+), .*", r"= inttoptr i64 8 to ptr", FORM),
    ("the size of a pointer", r"getelementptr i8, ptr (%\w+), i64 \d+", r"getelementptr ptr, ptr \1, i64 1", FORM),
    ("an offset of 32 bits", r"(getelementptr i8, ptr %\w+, )i64 (\d+)", r"\1i32 \2", FORM),
    ("a pointer and a number in one", r"= alloca \[16 x i8\]", "= alloca { ptr, i64 }", FORM),
    ("pointers in a row", r"= alloca \[16 x i8\]", "= alloca [2 x ptr]", FORM),
    ("a place for a pointer moved by bytes", r"(  (%\w+) = alloca ptr, align 8)", r"\1\n  " + MOVE, POINTER),
    ("a place for a pointer handed on", r"(  (%\w+) = alloca ptr, align 8)", r"\1\n  store ptr \2, ptr \2, align 8", POINTER),
    ("a place for a pointer read as a number", r"(  (%\w+) = alloca ptr, align 8)", r"\1\n  %n = load i64, ptr \2, align 8", POINTER),
    ("a pointer's bytes read as a number", SLICE, r"\1\n  %n = load i32, ptr \2, align 4", NUMBER),
    ("a pointer's bytes read as a pair", SLICE, r"\1\n  %n = load { i64, i64 }, ptr \2, align 8", NUMBER),
    ("a pair with a pointer", r"= load \{ i64, i64 \},", "= load { ptr, i64 },", FORM),
    ("three numbers at once", r"= load \{ i64, i64 \},", "= load { i64, i64, i64 },", FORM),
    ("pointers in an order", r"= icmp eq ptr (%\w+), null", r"= icmp ult ptr \1, null", FORM),
    ("numbers of 128 bits", r"= add i64 ", "= add i128 ", FORM),
    ("numbers of a fraction", r"= add i64 (%\w+), \d+", r"= fadd double \1, 1.0", FORM),
    ("vectors", r"= load i64, ptr", "= load <2 x i64>, ptr", FORM),
    ("memory of others", r"(  %\w+ = load i64, ptr)", r"\1 addrspace(1)", FORM),
    ("atomic memory", r"= load i64, ptr (%\w+), align 8", r"= load atomic i64, ptr \1 seq_cst, align 8", FORM),
    ("code of a processor", r"  unreachable", '  call void asm sideeffect "hlt", ""()', FORM),
    ("a function by its address", r"= call i64 @\S+\(", "= call i64 %r0(", FORM),
    ("a register", r"(declare void @llvm.trap.*)", r"\1\ndeclare i64 @llvm.read_register.i64(metadata) #1", OTHERS),
    ("a function of the system", r"(declare void @llvm.trap.*)", r"\1\ndeclare i64 @getpid() #1", OTHERS),
    ("a global", r"(\ndefine )", r"\n@counter = global i64 0\1", "it is not known here"),
    ("a constant of numbers", r"(\ndefine )", r"\n@static.99 = private unnamed_addr constant [2 x i32] zeroinitializer, align 4\1", "it is not known here"),
    ("bytes that are no constant", r"(@static.0 = private unnamed_addr )constant", r"\1global", "it is not known here"),
    ("a constant that is not there", r"store ptr @static\.0,", "store ptr @static.99,", "is named, and is no function and no constant"),
    ("an alias", r"(\ndefine )", r"\n@other = alias i64, ptr @rigtemple_4_check_parts\1", "it is not known here"),
    ("assembly", r"(\ndefine )", r'\nmodule asm "nop"\1', "it is not known here"),
    ("another calling convention", r"define internal noundef", "define internal fastcc noundef", "a function of a form"),
    ("one function more for others", r"define internal noundef", "define noundef", "the header does not declare it"),
    ("one function less", r"define (noundef i16 @rigtemple_4_check_parts)", r"define internal \1", "is declared by the header, and is not"),
    ("another parameter", r"(@rigtemple_4_check_parts\(ptr noundef %a0, )i64", r"\1i32", "is not as the header declares it"),
    ("a caller that has to widen", r"(@rigtemple_4_take_parts\(.*i16 noundef) %a8", r"\1 zeroext %a8", "is not as the header declares it"),
    ("a result of another width", r"define noundef i16 (@rigtemple_4_check_parts)", r"define noundef i32 \1", "is not as the header"),
    ("a function that is not there", r"(= call i64 @)\S+\(", r"\1nowhere(", "is named, and is no function and no constant of the module"),
]


def judged(text, header, folder):
    """What neutral.py says of a module, and its status."""
    path = os.path.join(folder, "module.ll")
    with open(path, "w", encoding="utf-8") as file:
        file.write(text)
    words = [sys.executable, "-B", NEUTRAL, path, header, os.path.join(folder, "neutral.ll")]
    done = subprocess.run(words, capture_output=True, text=True)
    return done.returncode, done.stdout + done.stderr


def main():
    """Tries the module as it is, and each change."""
    with open(sys.argv[1], encoding="utf-8") as file:
        module = file.read()
    passed = failed = 0
    with tempfile.TemporaryDirectory() as folder:
        for what, pattern, by, reason in [("nothing", r"\A", "", None), *EDITS]:
            changed, times = re.subn(pattern, by, module, count=1)
            status, said = judged(changed, sys.argv[2], folder)
            held = times == 1 and (status == 0 if reason is None else status == 2 and reason in said)
            passed, failed = passed + held, failed + (not held)
            if not held:
                print("failed: %s: %d changes, status %d, %s" % (what, times, status, said.strip()[:300]))
    print("%d passed, %d failed" % (passed, failed))
    sys.exit(1 if failed else 0)


if __name__ == "__main__":
    main()
