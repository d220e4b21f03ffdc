#!/bin/sh
# Measures the stack of the plain engine's four calls beside the first engine's, both by value, on x86-64. The plain engine stands in no
# library: a crate that hands on the eight calls to C is made in a copy of the tree, for this measure alone.
#
#   bench/plain_stack.sh
set -eu

die() { printf 'plain_stack.sh: %s\n' "$*" >&2; exit 2; }

[ $# -eq 0 ] || die "usage: plain_stack.sh"
root=$(cd "$(dirname "$0")/.." && pwd)
# shellcheck source=tests/kit.sh
. "$root/tests/kit.sh"
room=$(mktemp -d)
trap 'rm -rf "$room"' EXIT
mkdir "$room/tree"
(cd "$root" && tar cf - --exclude=out crates crates.txt) | tar xf - -C "$room/tree"
git init -q "$room/tree"
guide=$(sed -n 's/^guide: //p' "$root/crates.txt")
printf 'both_engines staticlib: %s unpacked plain guide\n' "$guide" >>"$room/tree/crates.txt"
mkdir -p "$room/tree/crates/both_engines/src"
{
    printf '// Both engines for C, to measure their stack: from the configuration that a card starts with.\n#![tactic(auto)]\n'
    for engine in first:guide: plain:plain::load::; do
        printf '\n// What a card starts with.\n#[unsafe(no_mangle)]\npub extern "C" fn %s_load(card: &[u8]) -> u16 {\n' "${engine%%:*}"
        printf '    let r = %s:load(card);\n    let c = r.configuration;\n    let m = c.mind;\n    m.length\n}\n' "${engine#*:}"
    done
    for engine in first:guide: plain:plain::list:; do
        printf '\n// The list.\n#[unsafe(no_mangle)]\npub extern "C" fn %s_list(card: &[u8], out: &mut [u16]) -> u16 {\n' "${engine%%:*}"
        printf '    let r = guide::load(card);\n    let c = r.configuration;\n    let w = %s:list(card, c, out);\n    w.judged\n}\n' "${engine#*:}"
    done
    for engine in first:guide: plain:plain::take:; do
        printf '\n// Choice 0.\n#[unsafe(no_mangle)]\npub extern "C" fn %s_take(card: &[u8]) -> u16 {\n' "${engine%%:*}"
        printf '    let r = guide::load(card);\n    let c = r.configuration;\n    let t = %s:take(card, c, 0);\n    let d = t.configuration;\n' "${engine#*:}"
        printf '    let m = d.mind;\n    m.length\n}\n'
    done
    for engine in first:guide: plain:plain::run:; do
        printf '\n// A run of 100.\n#[unsafe(no_mangle)]\npub extern "C" fn %s_run(card: &[u8]) -> u16 {\n' "${engine%%:*}"
        printf '    let r = guide::load(card);\n    let c = r.configuration;\n    let x = %s:run(card, c, 100);\n    x.count\n}\n' "${engine#*:}"
    done
} | sed 's/plain::load:::load/plain::load::load/' >"$room/tree/crates/both_engines/src/lib.rt"
(cd "$room/tree/crates/both_engines" && rt lib --cpu=x86-64) >"$room/log" 2>&1 || { tail -n 20 "$room/log" >&2; die "both engines were not built"; }
"$root/tests/build_c.sh" "$room/stack" "$root/bench/plain_stack.c" "$room/tree/crates/both_engines/out/libboth_engines.a"
printf '%-6s %8s %8s\n' bytes first plain
"$root/tests/run_c.sh" "$room/stack" "$root/cards/stripe.card" "$root/cards/shared.card" "$root/cards/maximal.card" \
    "$root/cards/widest.card" "$root/cards/jacquard.card" | while read -r call first plain; do
    printf '%-6s %8d %8d\n' "$call" "$first" "$plain"
done
