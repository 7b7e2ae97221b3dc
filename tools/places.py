#!/usr/bin/env python3
"""Lists the places that docs/DESIGN-PASS.md counts, in crates/*/src: `tools/places.py` counts, `tools/places.py N` lists point N."""
import glob
import re
import sys
from collections import defaultdict

KEYWORDS = set("as break const continue else enum false fn for if impl in let loop match mod mut pub ref return self "
               "Self static struct super trait true type use where while crate ensures requires ghost".split())


def sources():
    for path in sorted(glob.glob("crates/*/src/**/*.rt", recursive=True)):
        yield path, open(path).read()


def bare(text):
    """The text without comments, ghost imports and attributes, each line kept."""
    text = re.sub(r"//[^\n]*", "", text)
    text = re.sub(r"^ghost use [^\n]*", "", text, flags=re.M)
    return re.sub(r"^[ \t]*#!?\[[^\n]*", "", text, flags=re.M)


def items(kind):
    """Each item of a kind (fn, enum, struct): its place, name, head and body."""
    start = re.compile(r"^\s*\{$|[^{\n]\{$", re.M) if kind == "fn" else re.compile(r"[{(;]")
    for path, text in sources():
        code = bare(text)
        for m in re.finditer(r"\b%s\s+(\w+)" % kind, code):
            begin = start.search(code, m.end())
            if not begin:
                continue
            i = begin.end() - 1
            depth, j = 0, i
            while j < len(code):
                depth += code[j] in "{("
                depth -= code[j] in "})"
                j += 1
                if depth == 0:
                    break
            line = code.count("\n", 0, m.start()) + 1
            yield "%s:%d" % (path, line), m.group(1), code[m.start():i], code[i:j]


def variants(body):
    inner = body[1:-1]
    out, depth, word = [], 0, ""
    for c in inner:
        depth += c in "({"
        depth -= c in ")}"
        if c == "," and depth == 0:
            out.append(word.strip())
            word = ""
        else:
            word += c
    if word.strip():
        out.append(word.strip())
    return out


def point1():
    for at, name, head, body in items("enum"):
        v = variants(body)
        if len(v) == 2:
            yield at, "enum %s { %s }" % (name, ", ".join(v))
        elif any(re.fullmatch(r"(Nothing|Open|Absent|Linked|NoCall|New|Bad|Stopped)", x) for x in v):
            yield at, "enum %s with a case for none: { %s }" % (name, ", ".join(v))
    for at, name, head, body in items("struct"):
        f = variants(body)
        if len(f) > 1 and any(re.search(r":\s*(bool|Place)$", x) for x in f):
            yield at, "struct %s { %s }" % (name, ", ".join(f))
    for at, name, head, body in items("fn"):
        if re.search(r"(^|_)number$", name) and re.search(r"->\s*u64", head) and "match" in body:
            yield at, "fn %s gives a number for a case" % name


def shape(text):
    """Tokens with names by their order, types and literals by their kind."""
    names, out = {}, []
    for t in re.findall(r"[A-Za-z_]\w*|b?'[^']*'|b?\"[^\"]*\"|\d\w*|[^\s\w]", text):
        if t in KEYWORDS:
            out.append(t)
        elif re.match(r"b?['\"]|\d", t):
            out.append("0")
        elif re.match(r"[A-Za-z_]", t):
            out.append("x%d" % names.setdefault(t, len(names)))
        else:
            out.append(t)
    return tuple(out)


def point2():
    groups = defaultdict(list)
    for kind in ("fn", "struct", "enum"):
        for at, name, head, body in items(kind):
            sig = head.split("requires")[0].split("ensures")[0]
            key = shape(sig + body)
            if len(key) >= 14:
                groups[(kind, key)].append((at, name))
    for (kind, key), found in sorted(groups.items(), key=lambda g: g[1]):
        if len(found) > 1:
            for at, name in found:
                yield at, "%s %s, one of %d of a shape" % (kind, name, len(found))


def point3():
    for path, text in sources():
        for n, line in enumerate(bare(text).split("\n"), 1):
            if re.search(r"\bwhile\b|\bloop\b|\bfor \w+ in (0|\w+)\.\.", line):
                yield "%s:%d" % (path, n), line.strip()


def point4():
    for at, name, head, body in items("fn"):
        if re.match(r"(same|holds|both)", name) and "-> bool" in head:
            yield at, "equality: fn %s" % name
        elif re.fullmatch(r"(new|none_counted|no_head|afresh|fresh)", name) and "()" in head:
            yield at, "default: fn %s" % name
        elif not name.startswith("put") and re.search(r"^\{\s*match (self|\w+) \{", body) and all(
                re.match(r"(\w+::\w+(\([^()]*\))?\s*\|?\s*)+$|_$", a.strip()) for a in re.findall(r"(?:^|\n)\s+([^\n=]*?) =>", body)
        ) and re.search(r"-> (u64|usize|bool|LineAnswer|Answer|Turn)", head):
            yield at, "conversion: fn %s" % name
    for at, name, head, body in items("fn"):
        if re.match(r"put", name) and re.search(r"&mut|&'s mut|&mut self", head):
            yield at, "printing: fn %s" % name


def point5():
    groups = defaultdict(list)
    for at, name, head, body in items("fn"):
        params = re.findall(r"(\w+): (&(?:'\w+ )?(?:mut )?\[?\w+\]?|\w+)", head)
        for a, b in zip(params, params[1:]):
            groups["%s: %s, %s: %s" % (a + b)].append((at, name))
    for pair, found in sorted(groups.items()):
        if len(found) > 2:
            for at, name in found:
                yield at, "fn %s takes (%s), as %d do" % (name, pair, len(found))


def point6():
    pairs = r"(pending|buffer|line|call|want|a|b): &(?:mut )?\[u8\],\s*(held|wanted|m|n): usize"
    for at, name, head, body in items("fn"):
        if re.search(pairs, head):
            yield at, "fn %s takes a buffer and its length" % name
    for at, name, head, body in items("struct"):
        if re.search(r"(held|wanted): usize", body):
            yield at, "struct %s has the length of a buffer that is beside it" % name


def point7():
    for at, name, head, body in items("fn"):
        n = len(re.findall(r"if same\(word|word == b\"", body))
        if n > 2:
            yield at, "fn %s: %d words tested in a row" % (name, n)
        m = len(re.findall(r"return \w+\(d\b|=> \w+\(d\b", body))
        if m > 2:
            yield at, "fn %s: %d calls told apart" % (name, m)


def point8():
    for path in sorted(glob.glob("crates/*/proofs/**/Answers.antt", recursive=True)):
        text = open(path).read()
        yield path, "%d answers, %d lines" % (len(re.findall(r"^pub \S+ :", text, flags=re.M)), text.count("\n"))


POINTS = [point1, point2, point3, point4, point5, point6, point7, point8]

if __name__ == "__main__":
    if len(sys.argv) > 1:
        for at, what in POINTS[int(sys.argv[1]) - 1]():
            print("%s: %s" % (at, what))
    else:
        for n, point in enumerate(POINTS, 1):
            print("point %d: %d" % (n, len(list(point()))))
