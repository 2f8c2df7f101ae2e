#!/usr/bin/env python3
"""places [--list POINT] [FOLDER]: where code of crates/*/src reads like an older language (docs/DESIGN-PASS.md).

Counts, by the text alone, places of eight points; `--list 3` prints those of point 3. A line is a place to look at and no
verdict: docs/DESIGN-PASS.md says of each that stays why it does."""
import glob
import os
import re
import sys
from collections import defaultdict

POINTS = {
    '1': 'enums of the shape of Option or Result, a flag with a value beside it, numbers for kinds or refusals',
    '2': 'twins: functions or types that differ in names, a type, a size or a constant alone',
    '3': 'loops that count by hand',
    '4': 'equality, least and greatest, conversion and printing by hand',
    '5': 'a fact in the `requires` of three functions or more; three parameters that travel together through three or more',
    '6': 'a buffer and a place or length beside it; parallel arrays',
    '7': 'a match on a number that chooses a step',
    '8': 'answers and lemmas of proofs (how many; which of them the check finds alone is tried, not counted)',
}


def sources(folder):
    for path in sorted(glob.glob(os.path.join(folder, 'crates/*/src/**/*.rt'), recursive=True)):
        yield os.path.relpath(path, folder), open(path).read()


def plain(text):
    """The code without comments, as many lines as before."""
    return re.sub(r'//[^\n]*', '', text)


def functions(text):
    """(line, head, body) of each function."""
    for m in re.finditer(r'^( *)(pub(?:\(crate\))? )?fn (\w+)', text, re.M):
        indent = m.group(1)
        open_at = re.compile(r'(^%s\{$|\{$|^%s\{\}$|\{\}$)' % (indent, indent), re.M).search(text, m.start())
        if not open_at:
            continue
        if open_at.group(0).strip() == '{}':
            yield text.count('\n', 0, m.start()) + 1, text[m.start():open_at.start()], ''
            continue
        end = re.compile(r'^%s\}' % indent, re.M).search(text, open_at.end())
        body = text[open_at.end():end.start() if end else len(text)]
        yield text.count('\n', 0, m.start()) + 1, text[m.start():open_at.start()], body


def parameters(head):
    inside = re.search(r'fn \w+(?:<[^>]*>)?\((.*?)\)\s*(?:->|requires|ensures|$)', head, re.S)
    if not inside:
        return []
    return [p.strip().rstrip(',') for p in re.split(r',\s*(?![^\[<(]*[\]>)])', inside.group(1)) if ':' in p]


def skeleton(head, body):
    """The shape of a function: every name, number and type as a mark, numbered by its first use."""
    text = re.sub(r'\s+', ' ', re.sub(r'(requires|ensures) \w* ?\{[^}]*\}', '', head) + '{' + body + '}')
    seen = {}
    kept = 'fn let mut while for in if else return match pub crate as true false break'.split()

    def mark(m):
        word = m.group(0)
        return word if word in kept else seen.setdefault(word, 'n%d' % len(seen))
    return re.sub(r'[A-Za-z_]\w*|b?"[^"]*"|b?\'[^\']*\'|\d[\d_a-z]*', mark, text)


def point_1(files):
    for path, text in files:
        code = plain(text)
        for m in re.finditer(r'enum (\w+) \{(.*?)\n\}', code, re.S):
            if re.search(r'\b(Refused|None|Nothing|Missing)\b', m.group(2)):
                yield path, code.count('\n', 0, m.start()) + 1, 'enum ' + m.group(1)
        for m in re.finditer(r'struct (\w+)(?:<[^>]*>)? \{(.*?)\n\}', code, re.S):
            fields = re.findall(r'(\w+): ([^,\n]+)', m.group(2))
            flags = [n for n, t in fields if t == 'bool' or n in ('number', 'reason', 'state', 'fault')]
            if flags and len(fields) > 1:
                yield path, code.count('\n', 0, m.start()) + 1, 'struct %s: %s' % (m.group(1), ', '.join(flags))
        for m in re.finditer(r'^(?:pub(?:\(crate\))? )?const ([A-Z0-9_]+): (?:u8|u16|usize|i32|u32) = \d+;', code, re.M):
            if not re.match(r'(MOST|BLOCK_ROOM|.*ROOM|PART|BAND|PIVOTS|PIECES|ROW|LAST_VERSION|TERMS|POLYNOMIAL$)', m.group(1)):
                yield path, code.count('\n', 0, m.start()) + 1, 'const ' + m.group(1)
        lines = text.split('\n')
        for at, head, body in functions(text):
            above = []
            k = at - 2
            while k >= 0 and lines[k].lstrip().startswith('//'):
                above.append(lines[k])
                k -= 1
            if re.search(r'-> (u8|usize|i32)\b', head) and re.search(r'\b0[ ,;]*(where|which names no|and says)', ' '.join(reversed(above))):
                yield path, at, 'fn ' + re.search(r'fn (\w+)', head).group(1) + ': 0 for none'


def point_2(files):
    shapes = defaultdict(list)
    for path, text in files:
        if path.startswith('crates/calls/'):
            continue  # each call once more, by design
        for at, head, body in functions(plain(text)):
            if len(re.findall(r'\w+', body)) > 12:
                shapes[skeleton(head, body)].append((path, at, re.search(r'fn (\w+)', head).group(1)))
        for m in re.finditer(r'(struct|enum) (\w+) \{(.*?)\n\}', plain(text), re.S):
            shapes[m.group(1) + re.sub(r'\s+', ' ', re.sub(r'^\s*(pub(\(crate\))? )?', '', m.group(3), flags=re.M))].append(
                (path, plain(text).count('\n', 0, m.start()) + 1, m.group(2)))
    for same in shapes.values():
        for path, at, name in same[1:]:
            yield path, at, '%s, as %s of %s' % (name, same[0][2], same[0][0])


def point_3(files):
    for path, text in files:
        for k, line in enumerate(plain(text).split('\n'), 1):
            if re.search(r'\bwhile\b', line) and not re.search(r'while let', line):
                yield path, k, line.strip()


def point_4(files):
    for path, text in files:
        code = plain(text)
        for at, head, body in functions(code):
            name = re.search(r'fn (\w+)', head).group(1)
            words = body.strip()
            if re.fullmatch(r'\(?\w+\)? as \w+', words):
                yield path, at, name + ': a conversion'
            elif re.fullmatch(r'if (\w+) < (\w+) \{\s*\w+\s*\} else \{\s*\w+\s*\}', words):
                yield path, at, name + ': the less or the greater'
            elif re.fullmatch(r'\w+ == \w+', words):
                yield path, at, name + ': an equality'
        for k, line in enumerate(code.split('\n'), 1):
            if re.search(r'\bio::(write_all|print_decimal)\(', line):
                yield path, k, line.strip()


def point_5(files):
    facts = defaultdict(set)
    groups = defaultdict(set)
    for path, text in files:
        crate = path.split('/')[1]
        if crate == 'calls':
            continue
        for at, head, body in functions(plain(text)):
            asked = re.findall(r'requires(?: \w+)? \{(.*)\}', head)
            for fact in set(re.findall(r'\b[A-Z]\w+', ' '.join(asked))):
                facts[crate, fact].add((path, at))
            params = [p for p in parameters(head) if 'HostRuntime' not in p]
            for i in range(len(params) - 2):
                groups[crate, tuple(params[i:i + 3])].add((path, at))
    for (crate, fact), where in sorted(facts.items()):
        if len(where) >= 3:
            path, at = sorted(where)[0]
            yield path, at, '%s in %d contracts' % (fact, len(where))
    for (crate, three), where in sorted(groups.items()):
        if len(where) >= 3:
            path, at = sorted(where)[0]
            yield path, at, '(%s) in %d functions' % (', '.join(three), len(where))


def point_6(files):
    for path, text in files:
        if path.startswith('crates/calls/'):
            continue
        for at, head, body in functions(plain(text)):
            params = parameters(head)
            name = re.search(r'fn (\w+)', head).group(1)
            for a, b in zip(params, params[1:]):
                if re.search(r': &mut \[\w+\]$', a) and re.match(r'(at|from|n|len|length): usize', b):
                    yield path, at, '%s: %s, %s' % (name, a, b)
            if len([p for p in params if re.search(r': &\[[^\]]*; ', p)]) > 1:
                yield path, at, name + ': arrays in parallel'
            for m in re.finditer(r'let mut (\w+) = (?:\[0u8; \w+\]|io::large_buffer\(\));\s*let (\w+) = [^;]*&mut \1', body):
                yield path, at, '%s: %s and its length %s' % (name, m.group(1), m.group(2))


def point_7(files):
    for path, text in files:
        for at, head, body in functions(plain(text)):
            for m in re.finditer(r'match ([\w.]+) \{(.*?)\n    \}', body, re.S):
                if re.search(r'^\s*(\d+|[A-Z][A-Z0-9_]+)( \| [A-Z0-9_]+)* =>', m.group(2), re.M):
                    yield path, at, re.search(r'fn (\w+)', head).group(1) + ': match ' + m.group(1)


def point_8(folder):
    for path in sorted(glob.glob(os.path.join(folder, 'crates/*/proofs/**/*.antt'), recursive=True)):
        text = open(path).read()
        name = os.path.basename(path)
        count = len(re.findall(r'^(?:pub )?(?:abbrev )?(?:pub )?[^\s(:-][^:\n]* : ', text, re.M))
        if count and name != 'Lib.antt':
            kind = {'Answers.antt': 'answers', 'Invariants.antt': 'invariants', 'Proof.antt': 'a proof by hand'}.get(name, 'lemmas')
            yield os.path.relpath(path, folder), count, kind


def main(words):
    wanted, folder = None, os.path.join(os.path.dirname(os.path.abspath(__file__)), '..')
    while words:
        word = words.pop(0)
        if word == '--list':
            wanted = words.pop(0)
        elif word.startswith('-'):
            sys.exit(__doc__)
        else:
            folder = word
    files = list(sources(folder))
    for point, title in POINTS.items():
        if wanted not in (None, point):
            continue
        if point == '8':
            kinds = defaultdict(lambda: [0, 0])
            for path, count, kind in point_8(folder):
                kinds[kind][0] += 1
                kinds[kind][1] += count
                if wanted:
                    print('%s: %d %s' % (path, count, kind))
            print('8: ' + '; '.join('%d files of %s with %d statements' % (f, k, n) for k, (f, n) in sorted(kinds.items())) + ' | ' + title)
            continue
        found = list(globals()['point_' + point](files))
        if wanted:
            for path, at, what in found:
                print('%s:%d: %s' % (path, at, what))
        print('%s: %d places in %d crates | %s' % (point, len(found), len({p.split('/')[1] for p, _, _ in found}), title))


main(sys.argv[1:])
