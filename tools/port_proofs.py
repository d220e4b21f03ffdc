#!/usr/bin/env python3
"""Turns the proofs that walk the code (proofs/F/Proof.antt) into invariants and answers, once, by the names that the check lists.

usage: python3 tools/port_proofs.py CRATE_FOLDER NAMES [FUNCTION ..]      NAMES: what `rt check --generated DIR --old-names` wrote, DIR/names.json

What the check finds by itself (`search rules`) is left out. It says of each function what it could not turn.
"""

import json
import re
import sys
from pathlib import Path


def plain(name):
    """A name without what its spellings differ in."""
    return re.sub(r"-lem$", "", name.replace("_", "-")).replace("overflow-", "").replace("Need-", "").lower()


def clause_names(crates):
    """Of each function the names of its `requires` and of its `ensures`, where it has more than one."""
    made = {}
    for path in sorted(crates.glob("*/src/**/*.rt")):
        crate = path.relative_to(crates).parts[0]
        module = [part for part in path.relative_to(crates / crate / "src").with_suffix("").parts if part not in ("lib", "main")]
        text = path.read_text("utf-8")
        for m in re.finditer(r"(?m)^\s*(?:pub )?(?:extern \"C\" )?fn (\w+)", text):
            head = re.split(r"(?m)^\s*\{|\{$", text[m.start():], maxsplit=1)[0]
            pair = [re.findall(rf"(?m)^\s*{kind} (\w+) \{{", head) for kind in ("requires", "ensures")]
            made["::".join([crate, *module, m.group(1)])] = [names if len(names) > 1 else [] for names in pair]
    return made


def top_parts(text):
    """The parts of a tuple that ends a body: (what stands before it, its parts), or None."""
    text = text.rstrip()
    if not text.endswith(")"):
        return None
    depth, k = 0, len(text) - 1
    while k >= 0:
        depth += (text[k] in ")]}") - (text[k] in "([{")
        if depth == 0:
            break
        k -= 1
    before = text[:k].rstrip()
    if not re.search(r"( in| =)$", before):
        return None
    parts, start, depth = [], k + 1, 0
    for j in range(k + 1, len(text) - 1):
        depth += (text[j] in "([{") - (text[j] in ")]}")
        if text[j] == "," and depth == 0:
            parts.append(text[start:j].strip())
            start = j + 1
    last = text[start:-1].strip()
    return before, parts + ([last] if last else [])


def recorded(text, names):
    """A body whose value is a tuple of the clauses' facts, as the record of them by their names."""
    if not names:
        return text
    found = top_parts(text)
    if not found or len(found[1]) != 2:
        return text
    before, parts = found
    while len(parts) < len(names):
        more = top_parts("x = " + parts[-1])
        if not more or len(more[1]) != 2:
            return text
        parts = parts[:-1] + more[1]
    inner = "".join(f"      {name} = {part};\n" for name, part in zip(names, parts))
    return before + " record {\n" + inner + "    }"


def nested(way, names):
    """A way into clauses that stand as pairs in pairs, by the clause's name."""
    steps = way.lstrip(".").split(".")
    for k, name in enumerate(names):
        path = ["1"] * k + ([] if k + 1 == len(names) else ["0"])
        if steps[: len(path)] == path:
            return "".join("." + s for s in [name, *steps[len(path):]])
    return way


def by_name(text, f, own):
    """The parts of clauses by their names in place of their numbers."""
    paths = [("c.requires", own[0])]
    for _, (_, new), callee in f.callees:
        params = f.params.get(callee, [])
        steps = [re.escape(f"c.{new}")] + [re.escape(m) for m in re.findall(rf"let ([\w'₀-₉]+) = c\.{re.escape(new)} in", text)]
        for step in steps:
            text = re.sub(rf"(?<![\w.'-]){step}\.new((?:\.1)*)\.0(?![\w'-])", lambda m: m.group(0).split(".new")[0] + ".new." + params[m.group(1).count(".1")] if m.group(1).count(".1") < len(params) else m.group(0), text)
    for _, (_, new), callee in f.callees:
        if callee in f.clauses:
            paths.append((f"c.{new}.ensures", f.clauses[callee][1]))
            paths.append((f"c.{new}.requires", f.clauses[callee][0]))
    for path, names in paths:
        if not names:
            continue
        aliases = [re.escape(path)] + [re.escape(m) for m in re.findall(rf"let ([\w'₀-₉]+) = {re.escape(path)} in", text)]
        step, field = path.rsplit(".", 1)
        aliases += [re.escape(f"{m}.{field}") for m in re.findall(rf"let ([\w'₀-₉]+) = {re.escape(step)} in", text) if step != "c"]
        for alias in aliases:
            text = re.sub(rf"(?<![\w.'-]){alias}((?:\.[01](?![\w'-]))+)", lambda m: m.group(0)[: -len(m.group(1))] + nested(m.group(1), names), text)
    return text


class Function:
    """What the check knows of a function's places, in the older names and in today's."""

    def __init__(self, entry, clauses):
        self.clauses = clauses
        self.callees = [(p[0], p[2], p[3]) for p in entry["places"] if p[3]]
        self.params = entry["params"]
        self.needs = {}
        for (old, new), at in zip(entry["needs"], entry["asked_at"]):
            self.needs[plain(old)] = (new, at[0])
            self.needs.setdefault(plain(new), (new, at[0]))
        self.places = {p[0]: (p[1], p[2]) for p in entry["places"]}
        self.arms = {p[0]: arm for p, arm in zip(entry["places"], entry["arms"])}
        self.args = [(a.split(" .")[-1], b.split(" .")[-1]) for a, b in entry["args"] if a.startswith(".args ")]
        self.loops = {plain(l[0][0]): (l[0][1], l[1], ch) for l, ch in zip(entry["loops"], entry["changed"])}

    def chain(self, place):
        """From a place up to the start: the older and today's name of each step."""
        made = []
        while place is not None:
            parent, step = self.places.get(place, (None, ("", "")))
            made.append((place, step))
            place = parent
        return made


def turned(text, f, place, said):
    """A body at a place: each way through the places in today's names."""
    chain = f.chain(place)
    aliases = {"c": 0}
    while True:
        known = "|".join(re.escape(a) for a in sorted(aliases, key=len, reverse=True))
        m = re.search(rf"let ([\w'₀-₉]+) = ({known})((?:\.before)+) in\s*", text)
        if not m:
            break
        aliases[m.group(1)] = aliases[m.group(2)] + m.group(3).count(".before")
        text = text[: m.start()] + text[m.end():]

    def one(m):
        depth = aliases[m.group(1)] + m.group(2).count(".before")
        field = m.group(3)
        rest = m.group(4) or ""
        given = rest.lstrip(".").split(".") if rest else []
        for at, _ in chain[depth:] + chain[:depth]:
            arm = f.arms.get(at)
            for name, holder, path in (arm[2] if arm else []):
                if plain(field) == plain(holder) and given[: len(path)] == path:
                    return ".".join([f"c.{arm[0]}.{name}", *given[len(path):]])
        if depth < len(chain):
            at, (old, new) = chain[depth]
            if plain(field) == plain(old):
                return f"c.{new}" + rest
        for at, (old, new) in chain:
            if plain(field) == plain(old):
                return f"c.{new}" + rest
        return "c." + re.sub(r"_lem$", "", field).replace("well-formed", "well_formed") + rest

    names = "|".join(re.escape(a) for a in sorted(aliases, key=len, reverse=True))
    text = re.sub(rf"(?<![\w.'-])({names})((?:\.before)*)\.(?!before)([\w'-]+)((?:\.[\w'-]+)*)", one, text)
    text = re.sub(r"not-(?:true|false) _ (?:\((c\.if-not-[\w-]+\.(?:true|false))\)|(c\.if-not-[\w-]+\.(?:true|false)))", lambda m: m.group(1) or m.group(2), text)
    for old, new in f.args:
        if re.fullmatch(r"t\d+", old):
            text = re.sub(rf"\.{old}(?![\w'-])", f".{new}", text)
    if re.search(rf"(?<![\w.'-])({names})\.before", text):
        said.append("a place is handed on")
    return text


def apart(text, names):
    """A body in which no bound variable has one of the names."""
    for name in names:
        while True:
            m = re.search(rf"\(λ ((?:[\w'₀-₉]+ )*){re.escape(name)}((?: [\w'₀-₉]+)*)\. ", text)
            if not m:
                break
            depth, k = 0, m.start()
            while k < len(text):
                depth += (text[k] in "([{") - (text[k] in ")]}")
                if depth == 0:
                    break
                k += 1
            inner = re.sub(rf"(?<![\w.'₀-₉-]){re.escape(name)}(?![\w'₀-₉-])", name + "₁", text[m.start():k])
            text = text[: m.start()] + inner + text[k:]
    return text


def blocks(text):
    """The declarations of a file: (name, lines)."""
    made, lines = [], text.split("\n")
    current = None
    for line in lines:
        m = re.match(r"^(?:(?:abbrev|unfoldable|pub) )*([^\s(){}:]+)(?: [^:=]*)? : ", line) or re.match(r"^(?:(?:abbrev|unfoldable|pub) )*([^\s(){}:]+) :$", line)
        if m and not line.startswith((" ", "--", "use ")):
            current = [m.group(1), [line]]
            made.append(current)
        elif line.startswith(("use ", "--")) or (line and not line.startswith(" ") and re.match(r"^(module|data|pub data|record|pub record|infix)", line)):
            current = [line.split(" ")[0], [line]]
            made.append(current)
        elif current is not None:
            current[1].append(line)
        elif line.strip():
            current = ["?", [line]]
            made.append(current)
    return made


def body_of(name, lines):
    """What stands behind the signature: the unfolding lines, and the clauses as they are."""
    k = 1
    while k < len(lines) and not re.match(rf"^({re.escape(name)}(?= |$)|unfolding )", lines[k]):
        k += 1
    unfolding = []
    while k < len(lines) and lines[k].startswith("unfolding "):
        unfolding.append(lines[k])
        k += 1
    return lines[:1], unfolding, lines[k:]


def convert(folder, crate, entry, path, clauses):
    f = Function(entry, clauses)
    own = clauses.get("::".join([crate, *path.split(".")]), [[], []])
    text = (folder / "Proof.antt").read_text("utf-8")
    said, answers, invariants, helpers, uses = [], [], [], [], []
    fn = folder.name
    for name, lines in blocks(text):
        joined = "\n".join(lines)
        if name == "use":
            if not re.search(r"\.(Statement\.|Tie as|Lts as|Tie$)", joined):
                uses.append(joined.rstrip())
            continue
        if plain(name) in (plain(fn) + "-spec", plain(fn + "_spec")):
            continue
        sig = re.search(r": tie\.(invariant-|decreases-)([\w'-]+)", joined)
        need = re.search(r": tie\.Need-([\w'-]+)", joined)
        if sig:
            loop = f.loops.get(plain(sig.group(2)))
            if loop is None:
                said.append(f"no loop {sig.group(2)}")
                continue
            new, names, changed = loop
            _, unfolding, written = body_of(name, lines)
            clause = "\n".join(written).rstrip()
            m = re.match(rf"{re.escape(name)}((?: [^\s=]+)*) =", clause)
            if not m:
                said.append(f"{name} has a form of its own")
                helpers.append(joined.rstrip())
                continue
            given = m.group(1).split()
            meant = [f"l.initial.{n}" if ch else f"l.{n}" for n, ch in zip(names, changed)] + [f"l.{n}" for n, ch in zip(names, changed) if ch]
            if len(given) != len(meant):
                said.append(f"{name}: {len(given)} names for {len(meant)}: {' '.join(meant)}")
            rest = clause[m.end():]
            by = {g: w for g, w in zip(given, meant) if g != "_"}
            if by:
                rest = apart(rest, by)
                word = "|".join(re.escape(g) for g in sorted(by, key=len, reverse=True))
                rest = re.sub(rf"(?<![\w.'₀-₉-])({word})(?![\w'₀-₉-])", lambda m: by[m.group(1)], rest)
            kind = sig.group(1)
            invariants.append(f"abbrev pub {kind}{new} : goal.{kind}{new}\n" + "".join(u + "\n" for u in unfolding) + f"{kind}{new} l ={rest}")
            continue
        if need:
            wanted = f.needs.get(plain(name)) or f.needs.get(plain(need.group(1)))
            exact = f.needs.get(plain(need.group(1)))
            if exact:
                wanted = exact
            if wanted is None:
                said.append(f"no goal {need.group(1)}")
                helpers.append("-- was " + joined.rstrip().replace("\n", "\n-- "))
                continue
            new, place = wanted
            _, unfolding, written = body_of(name, lines)
            made = []
            for line in written:
                m = re.match(rf"^{re.escape(name)}(( [^=]*?)?) =(.*)$", line)
                if m and line.startswith(name):
                    params = [p for p in m.group(1).split() if p not in ("κs",)]
                    line = f"{new} {' '.join(params)} ={m.group(3)}" if params else f"{new} ={m.group(3)}"
                made.append(line)
            whole = by_name(turned("\n".join(made).rstrip(), f, place, said), f, own)
            if new.startswith("returns"):
                whole = recorded(whole, own[1])
            asked = re.match(r"(.*)-requires(-\d+)?$", new)
            if asked:
                for _, (_, step), callee in f.callees:
                    if new.startswith(step.rstrip("-0123456789")) and callee in clauses and callee.split("::")[-1] in new:
                        whole = recorded(whole, clauses[callee][0])
                        break
            if re.fullmatch(rf"{re.escape(new)} c = (search rules|omega arith|refl|tt)", whole.strip()) and not unfolding:
                continue
            answers.append(f"pub {new} : goal.{new}\n" + "".join(u + "\n" for u in unfolding) + whole)
            continue
        if "tie." in joined or "lts." in joined:
            said.append(f"{name} names a place")
        helpers.append(joined.rstrip())
    for k, text in enumerate(answers):
        answers[k] = re.sub(r"(?<!opened )(c\.in_default\.in_default-own\.keys\d+)", r"(opened \1)", re.sub(r"\.ptr(?![\w'-])", ".ref_ptr", text))
    if any("(opened " in text for text in answers):
        uses.append("use borrow.Enum.Refused.{opened}")
    head = f"Rattle.{crate}.proofs.{path}"
    if invariants:
        (folder / "Invariants.antt").write_text("\n".join(uses) + f"\nuse {head}.Given as goal\n\n" + "\n\n".join(invariants) + "\n", "utf-8")
    if answers or helpers:
        (folder / "Answers.antt").write_text("\n".join(uses) + f"\nuse {head}.Goals as goal\n\n" + "\n\n".join(helpers + answers) + "\n", "utf-8")
    (folder / "Proof.antt").unlink()
    return said


def main():
    crate_folder = Path(sys.argv[1]).resolve()
    crate = crate_folder.name
    names = json.loads(Path(sys.argv[2]).read_text("utf-8"))
    only = sys.argv[3:]
    clauses = clause_names(crate_folder.parent)
    for key, entry in names.items():
        m = re.fullmatch(rf"Rattle-{crate}-proofs\.(.*)\.Lts", key)
        if not m:
            continue
        path = m.group(1)
        folder = crate_folder / "proofs" / path.replace(".", "/")
        if only and folder.name not in only or not (folder / "Proof.antt").exists():
            continue
        try:
            said = convert(folder, crate, entry, path, clauses)
        except Exception as e:  # told, and left as it is
            said = [repr(e)]
        if said:
            print(f"{path}: {'; '.join(said)}")
    lib = crate_folder / "src/lib.rt"
    root = lib if lib.exists() else crate_folder / "src/main.rt"
    text = root.read_text("utf-8")
    if "#![tactic(auto)]" not in text:
        lines = text.split("\n")
        k = 0
        while k < len(lines) and lines[k].startswith("//"):
            k += 1
        lines[k:k] = ["#![tactic(auto)]", ""]
        root.write_text("\n".join(lines), "utf-8")


if __name__ == "__main__":
    main()
