#!/usr/bin/env python3
"""Prints which public functions, definitions and statements moved between two commits: `tools/moved.py OLD [NEW]`.

A function or definition is known by its name; tools/moved.map has those that changed it, as `old new`, and in `old = words` what states now what a definition that went
stated. Clauses and statements are compared after the new names and places are put in for the old ones.
"""
import re
import subprocess
import sys
from pathlib import Path

OLD = sys.argv[1]
NEW = sys.argv[2] if len(sys.argv) > 2 else "HEAD"


def git(*words):
    return subprocess.run(["git", *words], check=True, capture_output=True, text=True).stdout


def tree(commit):
    names = git("ls-tree", "-r", "--name-only", commit, "crates").split("\n")
    return {n: git("show", f"{commit}:{n}") for n in names if n.endswith((".rt", ".antt"))}


def bare(text):
    return re.sub(r"\s+", " ", re.sub(r"(?m)^\s*(--|//).*$", "", text)).strip()


def functions(files):
    """name -> (place, signature, clauses), of the public functions."""
    found = {}
    for path, text in files.items():
        if "/src/" not in path:
            continue
        place = path.split("/")[1]
        inside = ""
        lines = re.sub(r"(?m)^\s*(//|#\[).*\n", "", text).split("\n")
        at = 0
        while at < len(lines):
            line = lines[at]
            opened = re.match(r"^impl(?:<[^>]*>)? (?:\w+ for )?(\w+)", line)
            if opened:
                inside = opened.group(1) + "::"
            if line == "}":
                inside = ""
            if re.match(r"^\s*pub (const )?fn ", line):
                head = []
                while at < len(lines) and lines[at].strip() != "{":
                    head.append(lines[at])
                    at += 1
                whole = bare("\n".join(head))
                name = inside + re.search(r"fn (\w+)", whole).group(1)
                cut = re.search(r" (requires|ensures) ", whole)
                signature, clauses = (whole[:cut.start()], whole[cut.start():].strip()) if cut else (whole, "")
                found[name] = (place, signature, clauses)
            at += 1
    return found


def definitions(files):
    """name -> (place, text), of what specs/ has."""
    found = {}
    for path, text in files.items():
        if "/specs/" not in path or path.endswith("Lib.antt"):
            continue
        parts = path.split("/")
        place = parts[1] + "/specs/" + parts[-1][:-5]
        body = re.sub(r"(?m)^\s*(--|use |pub use ).*\n", "", text)
        for piece in re.split(r"\n(?=\S)", "\n" + body):
            named = re.match(r"(?:unfoldable pub|abbrev pub|pub record|pub data|unfoldable|abbrev|record|data) (\w+)", piece.strip())
            if named:
                last = named.group(1)
                found[(parts[1], last)] = [place, piece]
            elif found and piece.strip():
                key = (parts[1], last)
                if key in found:
                    found[key][1] += "\n" + piece
    return {k: (v[0], bare(v[1])) for k, v in found.items()}


def renames():
    words, gone = {}, {}
    for line in (Path(__file__).parent / "moved.map").read_text().split("\n"):
        if " = " in line:
            old, why = line.split(" = ", 1)
            gone[old] = why
        elif line and not line.startswith("#"):
            old, new = line.split()
            words[old] = new
    return words, gone


WORDS, GONE = renames()


def renamed(text):
    for old, new in WORDS.items():
        if "." not in old and "::" not in old:
            before = r"(?<!\w)" if old[0].isupper() else r"(?<![\w.])"
            text = re.sub(before + re.escape(old) + r"(?!\w)", new, text)
    return text


def cell(text):
    return "`" + text.replace("|", "\\|") + "`"


old, new = tree(OLD), tree(NEW)
then, now = functions(old), functions(new)

print("## Public functions\n")
for name in sorted(then):
    place, signature, clauses = then[name]
    to = WORDS.get(place + "::" + name, WORDS.get(name, name))
    if to not in now or name in GONE:
        print(f"- {cell(place + '::' + name)} is gone: {GONE.get(place + '::' + name, GONE.get(name, '?'))}")
        continue
    at, signature_now, clauses_now = now[to]
    if (place, name) == (at, to) and (renamed(signature), renamed(clauses)) == (signature_now, clauses_now):
        continue
    print(f"- {cell(place + '::' + name)} is {cell(at + '::' + to)}")
    if renamed(clauses) != clauses_now:
        print(f"  - then {cell(clauses)}\n  - now {cell(clauses_now)}")
came = sorted(set(now) - {WORDS.get(then[n][0] + "::" + n, WORDS.get(n, n)) for n in then})
for name in came:
    print(f"- new: {cell(now[name][0] + '::' + name)} {cell(now[name][2])}")

print("\n## Definitions and statements\n")
then, now = definitions(old), definitions(new)
by_name = {}
for (crate, name), value in now.items():
    by_name.setdefault(name, []).append((crate, value))
same = 0
seen = set()
for (crate, name), (place, text) in sorted(then.items()):
    to = WORDS.get(crate + "." + name, WORDS.get(name, name))
    home = [c for c in by_name.get(to, []) if c[0] == crate] or by_name.get(to, [])
    if crate + "." + name in GONE or not home:
        print(f"- {cell(place + '.' + name)} is gone: {GONE.get(crate + '.' + name, GONE.get(name, '?'))}")
        continue
    crate_now, (place_now, text_now) = home[0]
    seen.add((crate_now, to))
    moved = "" if (place, name) == (place_now, to) else f" is {cell(place_now + '.' + to)}"
    if renamed(text) == text_now:
        same += 1
        if moved:
            print(f"- {cell(place + '.' + name)}{moved}")
    else:
        print(f"- {cell(place + '.' + name)}{moved or ' changed'}\n  - then {cell(text)}\n  - now {cell(text_now)}")
for (crate, name), (place, text) in sorted(now.items()):
    if (crate, name) not in seen:
        print(f"- new: {cell(place + '.' + name)} {cell(text)}")
print(f"\n{same} definitions and statements say what they said, word for word but for the names above.")
