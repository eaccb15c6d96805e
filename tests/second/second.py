#!/usr/bin/env python3
"""A second reader of link messages: docs/HEADLINE.md in Python, with its tables read out of crates/*/specs. No line of
it is made from the code. answer() says what a message is answered, strictly or leniently, and state() the state
encoding of what is accepted. It imports nothing of this repository."""
import functools
import os
import re
from pathlib import Path

CRATES = Path(os.environ.get('CRATES', Path(__file__).resolve().parents[2] / 'crates'))
# what the lines reached, by the outermost table and the one: rows, sizes of their payloads, rows behind rows
REACHED = {'rows': set(), 'sizes': set(), 'pairs': set()}
MOST = 65531                                    # the longest payload that a frame may have
WIDTH = {'w8': 1, 'w16': 2, 'w32': 4, 'w64': 8}


def spec(name):
    return re.sub(r'--[^\n]*', '', (CRATES / name).read_text())


class Fault(Exception):
    """The first fault: a cause with its numbers; where it is, None while it is the frame's own; the numbers that lead
    there, the outermost first."""
    def __init__(self, *cause, at=None):
        super().__init__(cause)
        self.cause, self.at, self.path = cause, at, ()


# ** expressions of Rattle, as nested lists of words

def words(text):
    def inside(ts):
        out = []
        for t in ts:
            if t == '(':
                out.append(inside(ts))
            elif t == ')':
                return out
            else:
                out.append(t)
        return out
    return inside(iter(re.findall(r'[()]|[^\s()]+', text)))


def conses(text):
    return [words(p) for p in text.split('∷') if p.strip() not in ('', '[]')]


# ** enums and records: what is written of what was read

def enum(of):
    """The number that is written for each number: itself, or that of the default where it is not listed."""
    for file in sorted((CRATES / 'link_vals/specs').glob('*Table.antt')):
        text = spec(f'link_vals/specs/{file.name}')
        m = re.search(rf'^{of} n =\s+value_of (\w+) \w+ (.*) n$', text, re.M)
        if m:
            if m[2].startswith('(Other'):
                return lambda n: n
            listed = {v: int(n, 0) for v, n in re.findall(rf'^{m[1]} (\w+) = (\w+)$', text, re.M)}
            known, default = set(listed.values()), listed[m[2]]
            return lambda n: n if n in known else default
    raise SystemExit(f'no table of {of}')


RECORDS = [spec(f'link_recs/specs/{f.name}') for f in (CRATES / 'link_recs/specs').glob('*Fields.antt')]
RECORDS.append(spec('link_vfrec/specs/Records.antt'))


def field(how):
    """A field as it is read of a payload filled up with zeros: bytes, as they are written, lowest first."""
    if m := re.fullmatch(r'(?:be_)?number_at (\w+) payload (\d+)', how):
        a, n = int(m[2]), WIDTH[m[1]]
        return n, lambda p: p[a:a + n]
    if m := re.fullmatch(r'slice_index payload (\d+)', how):
        a = int(m[1])
        return 1, lambda p: p[a:a + 1]
    if m := re.fullmatch(r'zero_filled (\d+) (?:payload|\(drop (\d+) payload\))', how):
        a, n = int(m[2] or 0), int(m[1])
        return n, lambda p: p[a:a + n]
    m = re.fullmatch(r'(\w+) \((.*)\)', how)
    (n, inner), order = field(m[2]), 'big' if m[2].startswith('be_') else 'little'
    change = (lambda v: 0 if v in (0, 0xffffffff) else 1) if m[1] == 'is_on' else enum(m[1])
    return n, lambda p: change(int.from_bytes(inner(p), order)).to_bytes(n, order)


def record(name):
    """The size of a record, and what is written of a payload as long."""
    for text in RECORDS:
        if m := re.search(rf'^{name}_of payload = \w+_by \(λ i\. \w+_at w\d+ payload \((\d+) \* i\)\)', text, re.M):
            numbers = [int(n) for n in re.findall(r' = field (\d+);', text)]
            assert numbers == list(range(len(numbers)))
            return len(numbers) * int(m[1]), None
        if m := re.search(rf'^{name}_of payload =\s+record \{{(.*?)\}}', text, re.M | re.S):
            fields = dict(re.findall(r'(\w+) = (.*?)\s*(?:;|$)', m[1].strip(), re.S))
            written = re.search(rf'^{name}_bytes v =(.*?)(?:\n\n|\Z)', text, re.M | re.S)[1]
            parts = []
            for word in re.findall(r'v\.(\w+)|\b(0)(?= ∷)', written):
                parts.append(field(fields[word[0]]) if word[0] else (1, lambda p: b'\0'))
            return sum(n for n, _ in parts), lambda p: b''.join(f(p) for _, f in parts)
    raise SystemExit(f'no record {name}')


# ** forms: of a payload what is written, whether it fits, and how many values are inside

def number(n):
    def form(p):
        if len(p) != n:
            raise Fault('wrong-length', len(p), n)
        return p, True, 0
    return form


def text(p):
    said = p[:-1] if p[-1:] == b'\0' else p
    try:
        said.decode('utf-8')
    except UnicodeDecodeError:
        raise Fault('not-utf8') from None
    return said + b'\0', True, 0


def event(p):
    if len(p) < 8:
        raise Fault('too-short', len(p), 8)
    if p[2:4] in (b'\x07\x8c', b'\x08\x8c'):
        p = (len(p) & 0xffff).to_bytes(2, 'little') + p[2:4] + bytes(4) + p[8:]
    return p, True, 0


FORMS = {'u8': number(1), 'u16': number(2), 'u32': number(4), 'u64': number(8), 'i32': number(4), 'address': number(16),
         'ext_mask': number(4), 'bytes': lambda p: (p, True, 0), 'phys_id': lambda p: (p[:32], True, 0), 'text': text,
         'event': event}
SAME = ('inet6_iface_flags_of',)                # a set of flags, which is written as its number


def form_of(e):
    while isinstance(e, list) and len(e) == 1:
        e = e[0]
    if isinstance(e, str):
        return form_of(WORDS[e]) if e in WORDS else FORMS[e]
    if e[0] == 'as_form':
        inner = form_of(e[3])
        change = (lambda n: min(n, 1)) if e[1] == 'truth_of' else None if e[1] in SAME else enum(e[1])

        def form(p):
            q, fits, n = inner(p)
            return (change(int.from_bytes(q, 'little')).to_bytes(len(q), 'little') if change else q), fits, n
        return form
    if e[0] == 'plain':
        name = e[1][-1].removesuffix('_of')
        size, written = record(name)
        sized = e[1][0] == 'sized'
        least = int(e[1][1]) if sized else 0
        if sized and least != size or e[2] != name + '_bytes':
            raise SystemExit(f'{name}: {size} bytes are written of {least}')

        def form(p):
            if len(p) < least:
                raise Fault('too-short', len(p), least)
            p = p[:size].ljust(size, b'\0')
            return (written(p) if written else p), True, 0
        return form
    inner = form_of(e[1]) if e[0] in ('not_empty', 'entries') else TABLES[e[1]]
    if e[0] == 'not_empty':
        def form(p):
            if not p:
                raise Fault('empty-list')
            return inner(p)
        form.table = inner.table
        return form
    assert e[0] in ('list', 'entries'), e
    drops = e[0] == 'entries'
    table = {1: (None, 1, inner, e[1])} if drops else inner

    def form(p):
        return frames(table, p, drops)
    form.table = table
    return form


# ** rows: a table is, by the number, the size that is asked for, the kind that is written, and the form, or None

def table_of(rows):
    out = {}
    for r in rows:
        size = int(r.pop(1)) if r[0] == 'row_of_size' else None
        n = int(r[1])
        assert n not in out, f'two rows of {n}'
        kept = r[0] == 'kept_row'
        kind = n + 0x8000 if r[0] == 'nested_row' else n
        out[n] = (size, kind, None, None) if kept else (size, kind, form_of(r[2]), r[2])
    return out


def canon(kind, p):
    return (len(p) + 4 & 0xffff).to_bytes(2, 'little') + kind.to_bytes(2, 'little') + p + bytes(-len(p) % 4)


def member(table, kind, p):
    """What a frame is written as: its kind and payload, whether that fits, and how many values it is."""
    row = table.get(kind & 0x3fff)
    if row is None or row[2] is None or row[0] not in (None, len(p)):
        return kind, p, len(p) <= MOST, 1
    q, fits, n = row[2](p)
    return row[1], q, fits and len(q) <= MOST, 1 + n


def note(table, kind, p, before):
    """Counts what a line reaches; returns the row's number, or None."""
    n = kind & 0x3fff
    if n not in table:
        return None
    here = TOP[0], id(table)
    REACHED['rows'].add((*here, n))
    REACHED['sizes'].add((*here, n, len(p)))
    if before is not None:
        REACHED['pairs'].add((*here, before, n))
    return n


TOP = [None]


def is_hex(line):
    """Whether a line is hexadecimal digits, an even number of them."""
    return len(line) % 2 == 0 and not re.search(rb'[^0-9a-fA-F]', line)


def each(b, at=0):
    """The frames of b: where each begins, its kind and payload."""
    while at < len(b):
        left = len(b) - at
        if left < 4:
            raise Fault('frame-short', left, at=at)
        long = b[at] | b[at + 1] << 8
        if long < 4:
            raise Fault('frame-under', long, at=at)
        if long > left:
            raise Fault('frame-over', long, left, at=at)
        yield at, b[at + 2] | b[at + 3] << 8, b[at + 4:at + long]
        at += long + 3 & ~3


def led(fault, start, kind):
    """A fault of the payload of a frame, seen from the list that the frame stands in."""
    fault.at = start if fault.at is None else start + 4 + fault.at
    fault.path = (kind & 0x3fff, *fault.path)
    return fault


def frames(table, b, drops=False):
    out, all_fit, count, before = [], True, 0, None
    for start, kind, p in each(b):
        before = note(table, kind, p, before)
        if drops and kind & 0x3fff != 1:
            continue
        try:
            k, q, fits, n = member(table, kind, p)
        except Fault as fault:
            raise led(fault, start, kind)
        out.append(canon(k, q))
        all_fit, count = all_fit and fits, count + n
    return b''.join(out), all_fit, count


# ** the tables of link_headline/specs/Kernel.antt

KERNEL = spec('link_headline/specs/Kernel.antt')
TABLES, WORDS = {}, {}
for name, form in re.findall(r'^(function|port) = as_form \(.*?\) \(.*?\) \((.*)\)$', KERNEL, re.M):
    WORDS[name] = words(form)
for name, rows in re.findall(r'^(\w+) = record \{\s*rows =\s*([^;]*?);\s*other', KERNEL, re.M):
    if '++' not in rows:
        TABLES[name] = table_of(conses(rows))
FAMILY = {v: int(n) for v, n in re.findall(r'^address_family_number (\w+) = (\d+)$',
                                           spec('link_vals/specs/AddressFamilyTable.antt'), re.M)}
COMMON = conses(re.search(r'^rows =\n(.*?)\[\]', KERNEL, re.M | re.S)[1])
BY_FAMILY = {d: {m[1].split('.')[-1]: m[2] for m in re.finditer(rf'^{d} (\S+) = (.*)$', KERNEL, re.M)}
             for d in ('proto_info', 'af_spec')}
MESSAGE = {FAMILY.get(f): table_of([list(r) for r in COMMON] + [words(d.get(f, d['_'])) for d in BY_FAMILY.values()])
           for f in [*FAMILY, '_']}
layer_type = enum('layer_type_of')


def top(b):
    return MESSAGE.get(b[0], MESSAGE[None])


def header(b):
    return bytes([b[0], 0]) + layer_type(b[2] | b[3] << 8).to_bytes(2, 'little') + b[4:16]


def answer(b, refused=None):
    """('refused', fault), ('unfit',), ('empty-ports',) or ('ok', canonical encoding). Given a list, leniently: what is
    refused is added to it, as (fault, payload)."""
    if len(b) < 16:
        return 'refused', Fault('too-short', len(b), 16, at=0)
    table, out, fit, ports, before = top(b), [header(b)], True, False, None
    TOP[0] = id(table)
    try:
        for start, kind, p in each(b, 16):
            before = note(table, kind, p, before)
            try:
                k, q, fits, _ = member(table, kind, p)
                ports |= kind & 0x3fff == 24 and not q
            except Fault as fault:
                if refused is None:
                    raise led(fault, start, kind)
                refused.append((led(fault, start, kind), p))
                k, q, fits = kind, p, len(p) <= MOST
            out.append(canon(k, q))
            fit &= fits
    except Fault as fault:
        return 'refused', fault
    return ('unfit',) if not fit else ('empty-ports',) if ports else ('ok', b''.join(out))


# ** the state encoding: the rows of link_headline/specs/StateRows.antt, with the kernel's numbers, and what becomes of
# them by family and kind of link_state/specs/Table.antt

STATE = spec('link_state/specs/Table.antt')
ROWS = {}
for name, rows in re.findall(r'^kernel_rows (\w+|\([^)]*\)) =\s+(.*?)\[\]', spec('link_headline/specs/StateRows.antt'),
                             re.M | re.S):
    ROWS[name.strip('()').split()[0]] = [(int(n), a) for n, a in re.findall(r'\((\d+), (.*?)\)(?=\s*∷)', rows)]
ACTIONS = {d: dict(re.findall(rf'^{d} \w+\.(\w+) = (.*)$', STATE, re.M))
           for d in ('proto_info_action', 'af_spec_action', 'data_action', 'slave_data_action')}
KINDS = ({b'bridge': 'Bridge', b'can': 'Can', b'vcan': 'Can', b'hsr': 'Hsr'}, {b'bridge': 'Bridge', b'bond': 'Bond'})


def frames_in(b):
    try:
        yield from each(b)
    except Fault:
        return


def kinds_in(info):
    """The kinds that a list names, of a device and of its ports: by the first of each number, with a NUL or without."""
    named = [(k & 0x3fff, q[:-1] if q[-1:] == b'\0' else q) for _, k, q in frames_in(info)]
    return [next((KINDS[i].get(q, 'Other') for k, q in named if k == n), 'Other') for i, n in ((0, 1), (1, 4))]


@functools.lru_cache(None)
def level(name, first=None, second=None):
    """What becomes of each number of a level, which is that of a family, or of two kinds."""
    given, out = {'family': first, 'kind': first, 'slave_kind': second}, {}
    for n, action in ROWS[name]:
        w = action.split()
        if w[0] in ACTIONS:
            w = ACTIONS[w[0]].get(given[w[1]], 'Keep').split()
        out.setdefault(n, w)
    return out


def cleared(rows, b, byte=b'\0'):
    """A list with this byte in the place of what its level clears. One that is not zero stands there also where what is
    cleared has no bytes, so that it differs."""
    out, end = [], 0
    for start, kind, p in frames_in(b):
        what, *said = rows.get(kind & 0x3fff, ['Keep'])
        size = len(p)
        if what == 'Clear':
            p = byte * (size or byte[0])
        elif what == 'ClearPart':
            a, z = (int(x) for x in said)
            p = p[:a] + byte * len(p[a:z]) + p[z:]
        elif what == 'Enter':
            p = cleared(level(said[0]), p, byte)
        elif what == 'EnterInfo':
            p = cleared(level('Info', *kinds_in(p)), p, byte)
        end = start + 4 + size + 3 & ~3
        padding = b[start + 4 + size:end] if len(p) == size else bytes(-len(p) % 4)
        out += [(4 + len(p)).to_bytes(2, 'little'), b[start + 2:start + 4], p, padding]
    return b''.join(out) + b[end:]


FAMILY_NAME = {n: v for v, n in FAMILY.items()}


def state(t):
    return t[:12] + bytes(4) + cleared(level('Message', FAMILY_NAME.get(t[0])), t[16:])


def filled(s):
    """A state encoding with ones in the place of the attributes' bytes that it has at zero."""
    return s[:16] + cleared(level('Message', FAMILY_NAME.get(s[0])), s[16:], b'\1')
