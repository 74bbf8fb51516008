#!/usr/bin/env python3
"""Counts the places of the design pass in the sources of a commit or of the work tree.

    tools/places.py [--at COMMIT] [--list]

Prints a line for each point: the places found, and how many of them have a line `// Stays:` at most three lines above
them or at the head of their function. With --list each place is printed as FILE:LINE, its function and its text.
Points 1, 3, 4, 6 and 7 go by patterns on lines, 2 by functions of one shape, 5 by parameters and clauses that stand
in three functions or more, and 8 counts lines below proofs/.
"""
import re
import subprocess
import sys
from collections import defaultdict

LINES = {
    "1a answers a number or a flag for none": r"^\s*//.*\bor 0\.?$|^\s*//.*, or 0[ .,]|^\s*//.*and says whether|^\s*0$",
    "1b arms that only hand an Ok, Err, Some or None on": r"^\s*(Ok\(\w*\(?\)?\) => Ok\(|Ok\(\w+\) => \w+,$|Err\(\w+\) => (return )?(Err\(|0|None|true|false)|Some\(_\) => (true|false|None)|Some\(\w+\) => (Some\(\w+\)|\w+),$|None => (None|false|true|0),$)",
    "1c own cases for nothing, success or failure": r"^    (Absent|Nowhere|Empty|Moved|Ended|Stopped\(.*\)|Last|Refused\(.*\)),$",
    "1d Option used as an error": r"-> Option<(Fault|usize|u32)>$",
    "1e numbers for kinds": r"^\s*(\w+::\w+ => -?\d+|\d+ => \w+::\w+),$",
    "3a index by hand": r"\.enumerate\(\)|for \w+ in .*\.\.",
    "3b cursors and while loops": r"^\s*while |^\s*loop \{",
    "4a true or false by cases": r"=> (true|false),?$",
    "4b conversions by as": r"\bas (u8|u16|u32|u64|usize|i32|i64)\b",
    "4c comparisons field by field or case by case": r"fn (same_\w+|is_same|is_code|is_sign|is_call|is_digit)\b",
    "4d printing by hand": r"\b(format|write|writeln)!\(",
    "6a buffers with a length or a start beside": r"^\s*(pub(\(crate\))? )?(len|count|written|start|room): usize,$",
    "7a switches on what to do": r"match (op|kind|operand_of\(op\)|operand|effect|text|row_of\(.*\)\.kind|wanted) \{",
}


def files(commit):
    """Each source below a crate's src/, as (path, lines)."""
    if commit:
        names = subprocess.run(["git", "ls-tree", "-r", "--name-only", commit, "crates"], capture_output=True, text=True, check=True).stdout.split()
    else:
        names = subprocess.run(["git", "ls-files", "crates"], capture_output=True, text=True, check=True).stdout.split()
    for name in sorted(names):
        if commit:
            text = subprocess.run(["git", "show", f"{commit}:{name}"], capture_output=True, text=True, check=True).stdout
        else:
            text = open(name, encoding="utf-8").read()
        yield name, text.split("\n")


def functions(lines):
    """(name, first line, last line) of each function."""
    found = []
    for i, line in enumerate(lines):
        m = re.match(r"^( *)(pub(\(crate\))? )?fn (\w+)", line)
        if not m:
            continue
        end = i
        while end + 1 < len(lines) and lines[end] != m.group(1) + "}" and not lines[end].endswith("};"):
            end += 1
        found.append((m.group(4), i, end))
    return found


def around(lines, funcs, at):
    """The function at a line, and whether a line says why the place stays."""
    name, head = "-", at
    for n, first, last in funcs:
        if first <= at <= last:
            name, head = n, first
    stays = any("// Stays:" in lines[k] for k in range(max(0, at - 3), min(len(lines), at + 1)))
    k = head - 1
    while k >= 0 and re.match(r"^\s*(//|#\[)", lines[k]):
        stays = stays or "// Stays:" in lines[k]
        k -= 1
    return name, stays


def shape(lines, first, last):
    """A function's tokens, its names and numbers left out; clauses and comments do not count."""
    body = [l for l in lines[first:last + 1] if not re.match(r"^\s*(//|requires|ensures)", l)]
    tokens = re.findall(r"\w+|\S", "\n".join(body))
    keep = {"fn", "pub", "match", "if", "else", "for", "while", "let", "return", "Ok", "Err", "Some", "None", "self", "mut", "in", "loop"}
    return " ".join(t if t in keep or not re.match(r"\w", t) else "x" for t in tokens)


def main():
    args = sys.argv[1:]
    commit = args[args.index("--at") + 1] if "--at" in args else None
    places = defaultdict(list)
    shapes, together, clauses = defaultdict(list), defaultdict(list), defaultdict(list)
    proofs = defaultdict(int)
    for path, lines in files(commit):
        crate = path.split("/")[1]
        if "/proofs/" in path:
            proofs[crate] += len(lines) - 1
        if "/src/" not in path or not path.endswith(".rt"):
            continue
        funcs = functions(lines)
        for at, line in enumerate(lines):
            for point, pattern in LINES.items():
                if re.match(r"\s*//", line) and not point.startswith("1a"):
                    continue
                if re.search(pattern, line):
                    places[point].append((path, at, *around(lines, funcs, at), line.strip()))
            after = lines[at + 1].strip() if at + 1 < len(lines) else ""
            if re.search(r"\} else \{$|^\s*let .* else \{$", line) and re.match(r"return (false|true|None);$", after):
                places["1f let .. else that answers false, true or None"].append((path, at, *around(lines, funcs, at), line.strip()))
        for name, first, last in funcs:
            text = shape(lines, first, last)
            if len(text.split()) >= 30:
                shapes[text].append((path, first, name, around(lines, funcs, first)[1]))
            head = " ".join(lines[first:last + 1]).split("{")[0]
            params = re.findall(r"(\w+): ([^,()]+(?:<[^>]*>)?)", head.split(") ->")[0])
            names = [p[0] for p in params]
            for i in range(len(names)):
                for j in range(i + 1, len(names)):
                    together[(crate, names[i], names[j])].append((path, first, name))
            for k in range(first, last + 1):
                m = re.match(r"^\s*(requires|ensures) (?:\w+ )?\{ (.*) \}$", lines[k])
                if m:
                    clauses[(crate, m.group(1), m.group(2))].append((path, first, name))
    for text, found in shapes.items():
        if len(found) > 1:
            for path, at, name, stays in found:
                places["2 functions of one shape"].append((path, at, name, stays, f"{len(found)} of one shape"))
    for (crate, a, b), found in together.items():
        if len(found) >= 3:
            places["5a pairs of parameters in three functions"].append((f"crates/{crate}", 0, "-", False, f"{a}, {b}: {len(found)}"))
    for (crate, kind, clause), found in clauses.items():
        if len(found) >= 3:
            point = "5b requires in three functions" if kind == "requires" else "5c ensures in three functions"
            places[point].append((f"crates/{crate}", 0, "-", False, f"{clause}: {len(found)}"))
    for point in sorted(places):
        found = places[point]
        print(f"{point}: {len(found)}, with a line {sum(1 for p in found if p[3])}")
        if "--list" in args:
            for path, at, name, stays, text in found:
                print(f"    {path}:{at + 1} {name}{' STAYS' if stays else ''}: {text}")
    print("8 lines below proofs/: " + ", ".join(f"{c} {n}" for c, n in sorted(proofs.items())) + f", all {sum(proofs.values())}")


main()
