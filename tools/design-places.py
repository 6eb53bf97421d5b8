#!/usr/bin/env python3
"""Lists the places of src/ that are written as an older Rattle had to be, by point.

usage: design-places.py [--list POINT] [COMMIT]     counts of the tree, or of a commit; --list prints a point's places

Points: 1a option-shaped enum, 1b flag beside a value, 1c value beside a cursor, 1d number for a kind or a refusal,
2 function whose text is another's but for names, types and constants, 3 loop that counts by hand, 4a equality by hand,
4b conversion by a match over numbers or to numbers, 4c copying by hand, 4d printing into bytes by hand, 5a requires that stands three times,
5b three parameters that travel together through five functions, 6a slice with a count beside it, 6b array with a count beside it,
7 switch on a code that names the step.
"""
import collections
import os
import re
import subprocess
import sys

FN = re.compile(r'^( *)(pub(?:\(crate\))? )?(?:const )?fn (\w+)')
WORDS = set('fn let mut if else match while for in return loop break continue as true false self Self pub crate ref impl where struct enum use mod const move'.split())


def sources(commit):
    if commit is None:
        out = []
        for d, _, fs in os.walk('crates'):
            if '/src' in d + '/' and '/out' not in d:
                for f in fs:
                    if f.endswith('.rt'):
                        out.append((os.path.join(d, f), open(os.path.join(d, f), encoding='utf-8').read()))
        return sorted(out)
    names = subprocess.run(['git', 'ls-tree', '-r', '--name-only', commit, 'crates'], stdout=subprocess.PIPE, check=True).stdout.decode().split('\n')
    out = []
    for n in sorted(names):
        if n.endswith('.rt'):
            out.append((n, subprocess.run(['git', 'show', commit + ':' + n], stdout=subprocess.PIPE, check=True).stdout.decode()))
    return out


def bare(text):
    return re.sub(r'//[^\n]*', lambda m: ' ' * len(m.group(0)), text)


def line_of(text, at):
    return text.count('\n', 0, at) + 1


def block(text, at):
    """The text from the brace at or after `at` to its partner."""
    a = text.index('{', at)
    depth = 0
    for i in range(a, len(text)):
        if text[i] == '{':
            depth += 1
        elif text[i] == '}':
            depth -= 1
            if depth == 0:
                return a, i + 1
    return a, len(text)


def functions(text):
    """(line, name, head, contract, body) of each function."""
    for m in re.finditer(r'^ *(?:pub(?:\(crate\))? )?(?:const )?fn (\w+)', text, re.M):
        i = text.index('(', m.end()) if '(' in text[m.end():] else None
        if i is None:
            continue
        depth = 0
        j = i
        while j < len(text):
            depth += text[j] in '([' and 1 or text[j] in ')]' and -1 or 0
            j += 1
            if depth == 0:
                break
        head = text[m.start():j]
        k = j
        contract = ''
        while True:
            c = re.compile(r'\s*(?:->[^{;\n]*)?\s*(requires|ensures)\b[^{]*').match(text, k)
            if not c:
                break
            a, b = block(text, c.end())
            contract += ' ' + text[k:b].strip()
            k = b
        n = re.compile(r'[^{;]*').match(text, k)
        if n.end() < len(text) and text[n.end()] == '{':
            a, b = block(text, n.end())
            yield line_of(text, m.start()), m.group(1), head, contract, text[a:b]


def shape(body):
    names = {}
    out = []
    for t in re.findall(r"\w+|b?'[^']*'|b?\"[^\"]*\"|[^\w\s]", body):
        if t in WORDS:
            out.append(t)
        elif re.match(r"\d|b?['\"]", t):
            out.append('#')
        elif re.match(r'\w', t):
            out.append('n%d' % names.setdefault(t, len(names)))
        else:
            out.append(t)
    return ' '.join(out)


def params(head):
    inner = head[head.index('(') + 1:head.rindex(')')]
    depth = 0
    cur = ''
    out = []
    for ch in inner + ',':
        if ch in '([<{':
            depth += 1
        if ch in ')]>}':
            depth -= 1
        if ch == ',' and depth == 0:
            if cur.strip():
                out.append(' '.join(cur.split()))
            cur = ''
        else:
            cur += ch
    return out


def places(src):
    found = collections.OrderedDict((k, []) for k in '1a 1b 1c 1d 2 3 4a 4b 4c 4d 5a 5b 6a 6b 7'.split())
    shapes = collections.defaultdict(list)
    needs = collections.defaultdict(list)
    triples = collections.defaultdict(list)
    for path, text in src:
        t = bare(text)
        for m in re.finditer(r'\benum (\w+)[^{]*', t):
            a, b = block(t, m.end() - 1 if t[m.end() - 1] == '{' else m.end())
            vs = [v.strip() for v in re.split(r',(?![^({]*[)}])', t[a + 1:b - 1]) if v.strip()]
            if len(vs) == 2 and sum('(' in v for v in vs) >= 1 and all('{' not in v for v in vs):
                found['1a'].append((path, line_of(t, m.start()), m.group(1)))
        for m in re.finditer(r'\bstruct (\w+)[^{;(]*\{', t):
            a, b = block(t, m.end() - 1)
            fields = re.findall(r'(?:pub )?(\w+): ([^,\n]+)', t[a:b])
            at = (path, line_of(t, m.start()), m.group(1))
            if any(ty == 'bool' and n in ('ok', 'there', 'fits', 'present', 'found', 'right', 'done', 'label', 'has_label') for n, ty in fields) and len(fields) > 1:
                found['1b'].append(at)
            if any(ty == 'Cursor' for n, ty in fields):
                found['1c'].append(at)
            for (n, ty), (n2, ty2) in zip(fields, fields[1:]):
                if ty.startswith('[') and ty2 == 'usize' and re.search(r'count|length|len|used', n2):
                    found['6b'].append(at)
        for ln, name, head, contract, body in functions(t):
            at = (path, ln, name)
            ps = params(head)
            if re.search(r'number', name) and re.search(r'-> u8', t[t.index(head) + len(head):][:20]):
                found['1d'].append(at)
            elif any(re.match(r'(code|kind): u\d+', p) for p in ps):
                found['1d'].append(at)
            if len(re.findall(r'\w+|[^\w\s]', body)) >= 30:
                shapes[shape(body)].append(at)
            if re.search(r'\b(same|alike|equal)\w*$|^same_', name) and re.search(r'-> bool', t[t.index(head) + len(head):][:20]) and len(ps) == 2:
                found['4a'].append(at)
            arms = re.findall(r'=>\s*([^,\n{]+)', body)
            if body.count('match ') == 1 and len(arms) >= 3:
                if all(re.match(r'\d+\s*$|0x\w+\s*$|b\'', a) for a in arms) or len(re.findall(r'^\s*(?:\d+|b\'.\') =>', body, re.M)) >= len(arms) - 1 >= 2:
                    found['4b'].append(at)
            if re.match(r'(put|lay|write|tell|show)(_|$)', name) and any('[u8]' in p for p in ps):
                found['4d'].append(at)
            for m in re.finditer(r'\b(while|loop)\b', body):
                lb = block(body, m.end())
                inner = body[lb[0]:lb[1]]
                if re.search(r'\b(\w+) = \1 [+-] 1;|\b\w+ [+-]= 1;', inner) or re.search(r'\b(\w+) = (\w+);\s*\}$', inner):
                    found['3'].append((path, ln + body.count('\n', 0, m.start()), name))
                if re.search(r'\w+\[[^\]]+\] = \w+\[\w+\];', inner):
                    found['4c'].append((path, ln, name))
            for c in re.findall(r'requires(?: \w+)? \{ (.*?) \}', contract):
                needs[(path.split('/')[1], c)].append(at)
            for i in range(len(ps) - 2):
                triples[tuple(ps[i:i + 3])].append(at)
            for p, q in zip(ps, ps[1:]):
                if re.search(r': &(mut )?\[', p) and re.match(r'(\w*(count|used|length|len)|n): usize', q):
                    found['6a'].append(at)
                    break
            if re.search(r'\bmatch (code|step|kind|which)\b', body):
                found['7'].append(at)
    for k, v in shapes.items():
        if len(v) > 1:
            found['2'] += [(p, l, n + '  ~ ' + ', '.join(sorted(set(x[2] for x in v) - {n}))[:80]) for p, l, n in v]
    for k, v in needs.items():
        if len(v) > 2:
            found['5a'] += v
    seen = set()
    for k, v in triples.items():
        if len(v) > 4:
            for x in v:
                if x not in seen:
                    seen.add(x)
                    found['5b'].append(x)
    return found


def main(argv):
    point = None
    if argv[:1] == ['--list']:
        point = argv[1]
        argv = argv[2:]
    found = places(sources(argv[0] if argv else None))
    if point:
        for k, v in found.items():
            if k.startswith(point):
                for p, l, n in sorted(v):
                    print('%s %s:%d %s' % (k, p, l, n))
        return 0
    for k, v in found.items():
        print('%-3s %d' % (k, len(v)))
    return 0


if __name__ == '__main__':
    sys.exit(main(sys.argv[1:]))
