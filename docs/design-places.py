#!/usr/bin/env python3
"""The places of docs/DESIGN-PASS.md, counted in src/ and proofs/: `python3 docs/design-places.py [POINT] [--list]`, at the top.

1 enums and structs that may be an Option or a Result, numbers for refusals; 2 twins; 3 loops; 4 equality, conversion and the
like by hand; 5 facts in three and more contracts, parameters that travel together; 6 a slice and a length beside it;
7 a parameter that switches; 8 answers."""
import collections
import glob
import re
import sys

KEYWORDS = set('fn pub let mut if else for in while loop match return break continue as const true false struct enum impl ref self Self move'.split())
NUMBERS = ('u8', 'u16', 'u32', 'u64', 'usize', 'f64', 'f32', 'bool')
SIGNATURE = re.compile(r'^( *)(?:pub )?(?:extern "C" )?fn (\w+)(?:<[^>]*>)?\((.*?)\)\s*(?:-> ([^\n]*?))?\s*(?=\n)', re.S | re.M)


def sources():
    for name in sorted(glob.glob('crates/*/src/**/*.rt', recursive=True)):
        yield name, re.sub(r'//[^\n]*', '', open(name).read())


def block(text, at):
    depth = 0
    for i in range(text.index('{', at), len(text)):
        depth += {'{': 1, '}': -1}.get(text[i], 0)
        if depth == 0:
            return text[text.index('{', at):i + 1]


def functions():
    for name, text in sources():
        for m in SIGNATURE.finditer(text):
            body = re.compile('^' + m.group(1) + r'\{\n|(?<=[\w>)\]]) \{\n', re.M).search(text, m.end(3))
            if body:
                yield name, m.group(2), [p.strip() for p in m.group(3).split(',') if p.strip()], block(text, body.start())


def shapes():
    for name, text in sources():
        for m in re.finditer(r'(?:pub )?enum (\w+) (\{.*?\n\})', text, re.S):
            yield name, 'enum %s: %s' % (m.group(1), ' '.join(m.group(2).split()))
        for m in re.finditer(r'(?:pub )?struct (\w+)[^({]*(\{.*?\n\})', text, re.S):
            if re.search(r': bool\b', m.group(2)):
                yield name, 'struct %s: %s' % (m.group(1), ' '.join(m.group(2).split()))
        for m in re.finditer(r'fn (\w*(?:refusal|refused|code|kind)\w*)\(', text):
            yield name, 'fn ' + m.group(1)


def twins():
    groups = collections.defaultdict(list)
    for name, fn, _, body in functions():
        words, seen = [], {}
        for w in re.findall(r'[A-Za-z_]\w*|\d[\w.]*|[^\s\w]', body):
            if re.match('[A-Za-z_]', w):
                w = w if w in KEYWORDS else 'T' if w in NUMBERS else 'v%d' % seen.setdefault(w, len(seen))
            words.append('N' if w[0].isdigit() else w)
        if len(words) >= 13:
            groups[' '.join(words)].append((name, fn))
    for words, members in groups.items():
        if len(members) > 1:
            for name, fn in members:
                yield name, '%s (%d of a form)' % (fn, len(members))


def loops():
    for name, text in sources():
        for m in re.finditer(r'^ *(while [^\n]*|loop) \{', text, re.M):
            yield name, m.group(1)
        for m in re.finditer(r'^ *for (\w+) in ([^\n]*\.\.[^\n]*) \{', text, re.M):
            body = block(text, m.end() - 1)
            if re.search(r'\[[^\]\n]*\b%s\b[^\n]*\]' % m.group(1), body) or re.search(r'\b\w+ \+= ', body):
                yield name, 'for %s in %s' % (m.group(1), m.group(2))


def by_hand():
    names = r'same_\w+|\w+_eq|eq|cmp|total_cmp|\w*_cmp|is_none|\w+_in|index_of\w*|number_of|cell_at|node_at|least|greatest|copy\w*|to_\w+|from_\w+|say\w*|write_\w+'
    for name, text in sources():
        for m in re.finditer(r'fn (%s)\(' % names, text):
            yield name, m.group(1)


def facts():
    count = collections.Counter()
    for name, text in sources():
        for m in re.finditer(r'requires (?:\w+ )?\{ (.*?) \}\n', text):
            count[m.group(1)] += 1
    for fact, n in count.most_common():
        if n >= 3:
            yield '%d times' % n, fact
    pairs = collections.Counter()
    for _, _, params, _ in functions():
        for i, a in enumerate(params):
            for b in params[i + 1:]:
                pairs[a, b] += 1
    for (a, b), n in pairs.most_common():
        if n >= 20:
            yield '%d functions' % n, '%s, %s' % (a, b)


def lengths():
    for name, fn, params, _ in functions():
        if any('[' in p for p in params) and any(re.match(r'(n|m|count|len|cells|points|kept): usize', p) for p in params):
            yield name, '%s(%s)' % (fn, ', '.join(params))


def switches():
    for name, fn, params, _ in functions():
        if any(re.search(r': bool$', p) for p in params):
            yield name, '%s(%s)' % (fn, ', '.join(params))


def answers():
    lines = collections.Counter()
    for name in sorted(glob.glob('crates/*/proofs/**/Answers.antt', recursive=True)):
        text = open(name).read()
        yield name, '%d answers' % len(re.findall(r'^pub ', text, re.M))


POINTS = {'1': shapes, '2': twins, '3': loops, '4': by_hand, '5': facts, '6': lengths, '7': switches, '8': answers}

if __name__ == '__main__':
    asked = [a for a in sys.argv[1:] if a in POINTS] or list(POINTS)
    for point in asked:
        found = list(POINTS[point]())
        print('%s: %d' % (point, len(found)))
        if '--list' in sys.argv:
            for place in found:
                print('   ', *place)
