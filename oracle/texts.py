#!/usr/bin/env python3
"""The text program written a second time, from its page (docs/TEXT.md) and from docs/STEPS.md alone.

    texts.py < text                        the answer to a text
    texts.py table FILE                    the rows of a table of texts that are answered otherwise here
    texts.py random PROGRAM [COUNT] [SEED] random texts, a third of them damaged, past PROGRAM and this one

It is no part of the gate. The answers in crates/replay_texts/data/texts.txt are its own.
"""
import random
import re
import subprocess
import sys

PRIME = 2147483647
PLAIN = re.compile(rb'[0-9]{1,9}\Z')
VALUE = re.compile(rb'-?[0-9]{1,10}\Z')

# the fields of a cell's place
CELLS = {b'd': 3, b'e': 3, b'u': 2, b'v': 2, b'p': 2, b'q': 2}
# plain fields, values that must be there, whether more values may follow
STEPS = {b'update': (1, 0, False), b'cols': (1, 0, True), b'sumcol': (2, 2, True), b'addcol': (1, 0, False),
         b'setcol': (1, 0, False), b'axpy': (0, 2, False), b'copy': (0, 0, False), b'scale': (0, 1, False)}
LISTS = (b'gather', b'scatter')


# ---- lines

def plain(field):
    return int(field) if PLAIN.match(field) else None


def value(field):
    if not VALUE.match(field) or abs(int(field)) > 2147483646:
        return None
    return int(field)


def lines_of(text):
    if text == b'':
        return []
    return (text[:-1] if text.endswith(b'\n') else text).split(b'\n')


def parse(line):
    """What a line is, None where it has no stated form."""
    word, *fields = line.split(b'\t')
    if word == b'ring':
        return ('ring', fields[0]) if len(fields) == 1 and fields[0] in (b'wrap', b'residue') else None
    if word == b'size':
        numbers = [plain(f) for f in fields]
        return ('size', numbers) if len(numbers) == 3 and None not in numbers else None
    if word in CELLS:
        k = CELLS[word]
        if len(fields) != k + 1:
            return None
        at, v = [plain(f) for f in fields[:k]], value(fields[k])
        return ('cell', word, at, v) if None not in at and v is not None else None
    if word in LISTS:
        rows = [plain(f) for f in fields]
        return ('step', word, [], [], rows) if None not in rows else None
    if word in STEPS:
        k, fixed, more = STEPS[word]
        if len(fields) < k + fixed or (not more and len(fields) != k + fixed):
            return None
        front, values = [plain(f) for f in fields[:k]], [value(f) for f in fields[k:]]
        return ('step', word, front, values, []) if None not in front + values else None
    return None


# ---- a text

def answer(text):
    if len(text) > 16384:
        return b'fault\t0\t14\n'
    ring = size = None
    cells, steps, numbers, indices, place = {}, [], 0, 0, 0
    for place, line in enumerate(lines_of(text), 1):
        x = parse(line)
        faults = []
        if x is None:
            faults.append(13)
        elif x[0] == 'ring':
            if ring is None:
                ring = x[1]
            else:
                faults.append(13)
        elif x[0] == 'size':
            r, c, n = x[1]
            faults += [1] * (n == 0) + [2] * (r > 65536 or c > 1024 or n > 4096)
            faults += [13] * (ring is None or size is not None) + [14] * (r * c * n > 1024 or r * n > 1024)
            size = size or x[1]
        elif ring is None or size is None:
            faults.append(13)
        elif x[0] == 'cell':
            _, word, at, v = x
            r, c, n = size
            if at[0] >= n or at[-1] >= r or (len(at) == 3 and at[1] >= c):
                faults.append(10)
            if steps:
                faults.append(13)
            cells[(word, tuple(at))] = v
        else:
            steps.append(x[1:])
            numbers += len(x[3])
            indices += len(x[4])
            if len(steps) > 64 or numbers > 1024 or indices > 1024:
                faults.append(14)
        if faults:
            return b'fault\t%d\t%d\n' % (place, min(faults))
    if size is None:
        return b'fault\t%d\t13\n' % (place + 1)
    return script(2 ** 64 if ring == b'wrap' else PRIME, size, cells, steps)


def script(m, size, cells, steps):
    r, c, n = size
    answers = [refusal(r, c, *s) for s in steps]
    out = [b'step\t%d\t%d\n' % (i, k) for i, k in enumerate(answers)]
    taken = [s for s, k in zip(steps, answers) if k == 0]
    for b in range(n):
        def table(word):
            return [[cells.get((word, (b, j, i)), 0) for i in range(r)] for j in range(c)]

        def vector(word):
            return [cells.get((word, (b, i)), 0) for i in range(r)]

        state = [table(b'd'), vector(b'u'), vector(b'v')]
        weights = [table(b'e'), vector(b'p'), vector(b'q')]
        end = [[col[:] for col in state[0]], state[1][:], state[2][:]]
        carried = [[col[:] for col in weights[0]], weights[1][:], weights[2][:]]
        for s in taken:
            forward(m, r, *s, *end)
        for s in reversed(taken):
            back(m, r, *s, *carried)
        out.append(b'lane\t%d\t%d\t%d\n' % (b, pairing(m, end, weights), pairing(m, state, carried)))
    return b''.join(out)


def pairing(m, state, weights):
    total = sum(x * y for a, b in zip(state[0], weights[0]) for x, y in zip(a, b))
    return (total + sum(x * y for k in (1, 2) for x, y in zip(state[k], weights[k]))) % m


# ---- steps

def refusal(r, c, word, front, values, rows):
    outside = many = False
    needed = 0
    if word == b'update':
        outside, many = front[0] + 2 >= c, front[0] > 5
    elif word == b'cols':
        outside, many, needed = front[0] > c, front[0] > 8, front[0] ** 2
    elif word == b'sumcol':
        outside, many = front[1] > c or front[0] > front[1], front[1] - front[0] > 8
        needed = 2 + max(0, front[1] - front[0])
    elif word in (b'addcol', b'setcol'):
        outside = front[0] >= c
    elif word in (b'axpy', b'scale'):
        needed = 2 if word == b'axpy' else 1
    if outside:
        return 4
    if many:
        return 5
    if len(values) != needed:
        return 6
    if word in LISTS and len(rows) != r:
        return 9
    if word in LISTS and any(i >= r for i in rows):
        return 10
    return 0


def forward(m, r, word, front, values, rows, D, u, v):
    for i in range(r):
        if word == b'update':
            o = front[0]
            D[o + 2][i] = (u[i] - D[o + 1][i]) % m
            for j in range(o + 1, -1, -1):
                D[j][i] = (D[j][i] + D[j + 1][i]) % m
        elif word == b'cols':
            k = front[0]
            old = [D[j][i] for j in range(k)]
            for j in range(k):
                D[j][i] = sum(old[l] * values[j * k + l] for l in range(k)) % m
        elif word == b'sumcol':
            a, b, xs = values[0], values[1], values[2:]
            u[i] = (b * u[i] + sum(a * D[front[0] + l][i] * x for l, x in enumerate(xs))) % m
        elif word == b'addcol':
            u[i] = (u[i] + D[front[0]][i]) % m
        elif word == b'setcol':
            D[front[0]][i] = u[i]
        elif word == b'axpy':
            u[i] = (values[0] * v[i] + values[1] * u[i]) % m
        elif word == b'copy':
            v[i] = u[i]
        elif word == b'scale':
            u[i] = u[i] * values[0] % m
        elif word == b'gather':
            u[i] = v[rows[i]]
        elif word == b'scatter':
            v[rows[i]] = u[i]


def back(m, r, word, front, values, rows, E, p, q):
    if word == b'gather':
        for i in range(r):
            q[rows[i]] = (q[rows[i]] + p[i]) % m
        p[:] = [0] * r
        return
    for i in range(r - 1, -1, -1):
        if word == b'update':
            o = front[0]
            old = [E[j][i] for j in range(o + 3)]
            p[i] = (p[i] + sum(old)) % m
            for j in range(o + 1):
                E[j][i] = sum(old[:j + 1]) % m
            E[o + 1][i], E[o + 2][i] = -old[o + 2] % m, 0
        elif word == b'cols':
            k = front[0]
            old = [E[j][i] for j in range(k)]
            for j in range(k):
                E[j][i] = sum(old[l] * values[l * k + j] for l in range(k)) % m
        elif word == b'sumcol':
            a, b, xs = values[0], values[1], values[2:]
            for l, x in enumerate(xs):
                E[front[0] + l][i] = (E[front[0] + l][i] + a * x * p[i]) % m
            p[i] = p[i] * b % m
        elif word == b'addcol':
            E[front[0]][i] = (E[front[0]][i] + p[i]) % m
        elif word == b'setcol':
            p[i], E[front[0]][i] = (p[i] + E[front[0]][i]) % m, 0
        elif word == b'axpy':
            q[i] = (q[i] + values[0] * p[i]) % m
            p[i] = p[i] * values[1] % m
        elif word == b'copy':
            p[i], q[i] = (p[i] + q[i]) % m, 0
        elif word == b'scale':
            p[i] = p[i] * values[0] % m
        elif word == b'scatter':
            p[i], q[rows[i]] = (p[i] + q[rows[i]]) % m, 0


# ---- a table of texts

def expand(coded):
    """A space stands for a tab, / for a newline, %HH for a byte, {A-B:body} for body for each number, @ in it."""
    def decode(part, number):
        part = part.replace('@', str(number)).replace(' ', '\t').replace('/', '\n').encode()
        return re.sub(rb'%([0-9A-F]{2})', lambda x: bytes([int(x[1], 16)]), part)

    out = b''
    for part in re.split(r'(\{[^}]*\})', coded):
        if part.startswith('{'):
            numbers, body = part[1:-1].split(':', 1)
            first, last = map(int, numbers.split('-'))
            out += b''.join(decode(body, k) for k in range(first, last + 1))
        else:
            out += decode(part, 0)
    return out


def judge_table(path):
    rows = [row for row in open(path, encoding='ascii').read().split('\n') if row and not row.startswith('#')]
    for row in rows:
        name, text, wanted = row.split(' | ')
        if answer(expand(text)) != expand(wanted):
            print('answered otherwise:', name)
    print(len(rows), 'texts')


# ---- random texts

def random_text(r):
    n, rows, cols = r.randint(1, 4), r.randint(0, 4), r.randint(0, 10)
    lines = ['ring\t' + r.choice(['wrap', 'residue']), f'size\t{rows}\t{cols}\t{n}']

    def number():
        return r.choice([str(r.randint(-5, 5)), str(r.randint(-2147483646, 2147483646)), '2147483646', '-0', '007'])

    for _ in range(r.randint(0, 60) if rows else 0):
        word = r.choice('deuvpq' if cols else 'uvpq')
        column = [str(r.randrange(cols))] if word in 'de' else []
        lines.append('\t'.join([word, str(r.randrange(n))] + column + [str(r.randrange(rows)), number()]))
    for _ in range(r.randint(0, 14)):
        word = r.choice([w.decode() for w in list(STEPS) + list(LISTS)])
        fields, count = [], {'axpy': 2, 'scale': 1}.get(word, 0)
        if word == 'cols':
            k = r.randint(0, 9)
            fields, count = [k], k * k if r.random() < 0.9 else r.randint(0, 9)
        elif word == 'sumcol':
            start = r.randint(0, 6)
            end = max(0, start + r.randint(-1, 9))
            fields, count = [start, end], 2 + (max(0, end - start) if r.random() < 0.9 else r.randint(0, 9))
        elif word in ('update', 'addcol', 'setcol'):
            fields = [r.randint(0, 10 if word != 'update' else 7)]
        elif word in ('gather', 'scatter'):
            fields = [r.randint(0, max(0, rows - 1) + (r.random() < 0.1)) for _ in range(rows + (r.random() < 0.1))]
        lines.append('\t'.join([word] + [str(f) for f in fields] + [number() for _ in range(count)]))
    return ('\n'.join(lines) + '\n' * r.randint(0, 1)).encode()


def damaged(r, text):
    text = bytearray(text)
    for _ in range(r.randint(1, 3)):
        i, k = r.randrange(len(text)), r.random()
        if k < 0.3:
            del text[i]
        elif k < 0.6:
            text.insert(i, r.choice(b'\t\n0123456789-duvz \xff'))
        elif k < 0.8:
            text[i] = r.choice(b'\t\n0123456789-deuvpq')
        else:
            lines = bytes(text).split(b'\n')
            lines.insert(r.randrange(len(lines) + 1), r.choice(lines))
            text = bytearray(b'\n'.join(lines))
    return bytes(text)


def judge_random(program, count, seed):
    r = random.Random(seed)
    for i in range(count):
        text = random_text(r)
        if i % 3 == 0:
            text = damaged(r, text)
        got = subprocess.run([program], input=text, capture_output=True).stdout
        if got != answer(text):
            print('text', i, repr(text), 'here', answer(text), 'there', got)
            return 1
    print(count, 'texts from seed', seed, 'and no difference')
    return 0


def main(args):
    if args[:1] == ['table']:
        judge_table(args[1])
    elif args[:1] == ['random']:
        count, seed = (args[2:] + ['1000', '1'][len(args) - 2:])[:2]
        return judge_random(args[1], int(count), int(seed))
    else:
        sys.stdout.buffer.write(answer(sys.stdin.buffer.read()))
    return 0


if __name__ == '__main__':
    sys.exit(main(sys.argv[1:]))
