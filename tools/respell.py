#!/usr/bin/env python3
# Brings the repository's own names of definitions and lemmas to today's spelling: words in snake case. The pairs stand in
# respell.map beside this file, old name and new name. Run once, at the top, after port.py. Functions of src/, strings, inputs
# and outputs keep their names: in .rt files only `ghost use` lines and clauses are read, in .antt files no string.
import glob, os, re, sys

here = os.path.dirname(os.path.abspath(__file__))
names, fields = {}, set()
for line in open(os.path.join(here, 'respell.map')):
    parts = line.split()
    if len(parts) >= 2:
        names[parts[0]] = parts[1]
        if len(parts) > 2: fields.add(parts[0])
# words of the customer's formats that are also names of lemmas: in prose they stay
words = {'no-parent', 'not-consecutive', 'hash-unknown', 'hash-mismatch', 'already-current', 'ready-views', 'cold-views', 'no-hash'}
token = re.compile(r"[^\s(){}\[\].;,:\"`«»|]+")

def code(text, generated):
    # text without strings and comments; generated: a file in a function's folder, where `.name` is a name that Rattle makes
    def put(m):
        t = m.group(0)
        if t not in names: return t
        if generated and m.start() > 0 and text[m.start() - 1] == '.' and t not in fields: return t
        return names[t]
    return token.sub(put, text)

def prose(text):
    return re.sub(r'`([^`\n]+)`', lambda m: '`' + token.sub(lambda t: names.get(t.group(0), t.group(0)) if t.group(0) not in words else t.group(0), m.group(1)) + '`',
                  re.sub(r"\b[a-z]+[A-Z]\w*\b", lambda m: names.get(m.group(0), m.group(0)), text))

def antt(text, generated=False):
    out = []
    for line in text.split('\n'):
        m = re.match(r'^((?:[^"-]|"(?:[^"\\]|\\.)*"|-(?!-))*)(--.*)?$', line)
        body, note = (m.group(1), m.group(2) or '') if m else (line, '')
        parts = re.split(r'("(?:[^"\\]|\\.)*")', body)
        out.append(''.join(p if p.startswith('"') else code(p, generated) for p in parts) + prose(note))
    return '\n'.join(out)

def clauses(text):
    # `ghost use` lines and the clauses of functions
    out, at = [], 0
    for m in re.finditer(r'^ghost use [^;]*;|^\s*(?:requires|ensures|ghost)\*?\b[^{\n]*\{', text, re.M):
        if m.start() < at: continue
        end = m.end()
        if not m.group(0).startswith('ghost use'):
            depth = 1
            while depth:
                depth += {'{': 1, '}': -1}.get(text[end], 0)
                end += 1
        out.append(text[at:m.start()]); out.append(code(text[m.start():end], False)); at = end
    out.append(text[at:])
    return ''.join(re.sub(r'//.*', lambda m: prose(m.group(0)), p) for p in out)

def put(path, text, new):
    if text != new: open(path, 'w').write(new)

for path in glob.glob('crates/*/specs/**/*.antt', recursive=True) + glob.glob('crates/*/proofs/**/*.antt', recursive=True):
    text = open(path).read()
    inside = path.split('/proofs/')[1] if '/proofs/' in path else ''
    put(path, text, antt(text, '/' in inside))
for path in glob.glob('crates/*/src/**/*.rt', recursive=True):
    text = open(path).read(); put(path, text, clauses(text))
for path in ['README.md'] + glob.glob('docs/*.md'):
    text = open(path).read(); put(path, text, prose(text))
