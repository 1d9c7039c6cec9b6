#!/usr/bin/env python3
"""Writes a block's Parquet file with the program, and reads it with a plain reader of Parquet files.

usage: tools/block_file.py OUT [PROGRAM [WRITES [SEED]]]
       tools/block_file.py --stored [--write]
    OUT: where the file goes, which tools/parquet_reader.py prints, and any other Parquet reader
    PROGRAM: default crates/run_block_file/out/run_block_file, made by `rt run`; WRITES: as many as one block takes, default 12; SEED:
        default 1
    --stored says whether the stored run of crates/run_block_file is the session of made writes with the file of
    their rows, whose columns have two pages, and with --write makes it

It makes a session of writes (those of tools/plain_answers.py) and runs the program on it. The rows that
the reader finds in the file must be the plain list of the rows written, in their order and with their
numbers, and the file must be the one that is spelled here from that list. Each place that the footer tells
must be the chunk's own, told twice, and its entries the range of the numbers. Before that it lets the reader
try a small file with one bit of each byte of the footer changed, of which none may pass for the file of the
same rows. The spelling is made from the description of the file alone:

- PAR1, the chunks in the order of the columns, the footer, its length in four bytes, and PAR1. There is one
  row group, and none where there are no rows.
- Eleven required columns, then `labels.` and `pprof_labels.` with each name that occurs, sorted by bytes
  and optional. A stack is its frames, each with its length in four bytes before it.
- A chunk is its pages of 1,000 rows and a last one of the rest. A page of an optional column begins with the
  levels in hybrid runs of width 1: the greatest stretch of eight or more equal values is one repeated run,
  and what lies between is taken by eights into packed runs, the last filled up with zeros.
- The footer is in Thrift's compact protocol, without fields that are not set here.
"""
import functools
import pathlib
import random
import struct
import subprocess
import sys

import parquet_reader
import plain_answers
from plain_answers import label_key
from program import help_asked, program_of

ROOT = pathlib.Path(__file__).resolve().parent.parent
FOLDER = ROOT / 'crates/run_block_file'
# More rows than a page has, of no more writes than one compaction takes.
STORED_SEED, STORED_WRITES, STORED_SERIES = 4, 15, 24
# A write of a few rows with labels of both kinds.
SMALL_SEED = 9
# So many series a write, that pages are filled.
MOST_SERIES = 100

PAGE_ROWS = 1000
INT64, BYTE_ARRAY = 2, 6
REQUIRED, OPTIONAL = 0, 1
PLAIN, RLE = 0, 3
FIXED = [
    ('_tx', INT64), ('name', BYTE_ARRAY), ('sample_type', BYTE_ARRAY), ('sample_unit', BYTE_ARRAY),
    ('period_type', BYTE_ARRAY), ('period_unit', BYTE_ARRAY), ('timestamp', INT64), ('stack', BYTE_ARRAY),
    ('period', INT64), ('duration', INT64), ('value', INT64),
]


# Thrift's compact protocol: values with their types, and structs of them by rising field numbers.

def varint(n):
    low = n & 127
    return bytes([low]) if n == low else bytes([low | 128]) + varint(n >> 7)


def zigzag(n):
    return varint(2 * n if n >= 0 else -2 * n - 1)


def whole32(n):
    return 5, zigzag(n)


def whole64(n):
    return 6, zigzag(n)


def binary(data):
    return 8, varint(len(data)) + data


def text(data):
    return binary(data.encode())


def items(kind, values):
    size = len(values)
    head = bytes([size << 4 | kind]) if size < 15 else bytes([15 << 4 | kind]) + varint(size)
    return 9, head + b''.join(data for _, data in values)


def struct_of(fields):
    out, last = b'', 0
    for number, (kind, data) in sorted(fields.items()):
        out += bytes([number - last << 4 | kind]) + data
        last = number
    return 12, out + b'\0'


# Hybrid runs.

def stretch(values, at):
    """How many values from the place on are equal."""
    end = at
    while end < len(values) and values[end] == values[at]:
        end += 1
    return end - at


def packed_run(values, width):
    groups = (len(values) + 7) // 8
    bits = sum(value << width * at for at, value in enumerate(values))
    return varint(groups * 2 + 1) + bits.to_bytes(groups * width, 'little')


def hybrid(values, width):
    out, at = b'', 0
    while at < len(values):
        equal = stretch(values, at)
        if equal >= 8:
            out += varint(equal * 2) + values[at].to_bytes((width + 7) // 8, 'little')
            at += equal
            continue
        first = at
        while at < len(values) and stretch(values, at) < 8:
            at += 8
        out += packed_run(values[first:at], width)
    return out


# Columns of rows, their pages and their chunks.

class Column:
    """A column: its name, its type, whether it is optional, and its cell of a row."""

    def __init__(self, name, kind, optional, cell):
        self.name, self.kind, self.optional, self.cell = name, kind, optional, cell


def stack_bytes(stack):
    return b''.join(struct.pack('<I', len(frame.encode())) + frame.encode() for frame in stack)


def fixed_cell(name, number, row):
    """The value of a row, which is numbered, in a required column."""
    texts = dict(zip(('name', 'sample_type', 'sample_unit', 'period_type', 'period_unit'), row['type']))
    if name == '_tx':
        return number
    if name == 'stack':
        return stack_bytes(row['stack'])
    return texts[name].encode() if name in texts else row[name]


def label_cell(field, name, _number, row):
    value = row[field].get(name)
    return None if value is None else value.encode()


def columns_of(numbered):
    """The columns that these numbered rows have."""
    columns = [Column(name, kind, False, functools.partial(fixed_cell, name)) for name, kind in FIXED]
    for prefix, field in (('labels.', 'labels'), ('pprof_labels.', 'sample_labels')):
        names = {name for _, row in numbered for name in row[field]}
        for name in sorted(names, key=str.encode):
            columns.append(Column(prefix + name, BYTE_ARRAY, True, functools.partial(label_cell, field, name)))
    return columns


def plain(column, cell):
    return struct.pack('<q', cell) if column.kind == INT64 else struct.pack('<I', len(cell)) + cell


def page(column, cells):
    levels = hybrid([int(cell is not None) for cell in cells], 1)
    body = struct.pack('<I', len(levels)) + levels if column.optional else b''
    body += b''.join(plain(column, cell) for cell in cells if cell is not None)
    data = struct_of({1: whole32(len(cells)), 2: whole32(PLAIN), 3: whole32(RLE), 4: whole32(RLE)})
    header = struct_of({1: whole32(0), 2: whole32(len(body)), 3: whole32(len(body)), 5: data})
    return header[1] + body


def chunk(column, numbered):
    cells = [column.cell(number, row) for number, row in numbered]
    return b''.join(page(column, cells[at:at + PAGE_ROWS]) for at in range(0, len(cells), PAGE_ROWS))


# The footer and the file.

def schema(columns):
    elements = [struct_of({4: text('schema'), 5: whole32(len(columns))})]
    for column in columns:
        repetition = OPTIONAL if column.optional else REQUIRED
        elements.append(struct_of({1: whole32(column.kind), 3: whole32(repetition), 4: text(column.name)}))
    return items(12, elements)


def column_chunk(column, place, size, rows):
    encodings = [PLAIN, RLE] if column.optional else [PLAIN]
    meta = struct_of({
        1: whole32(column.kind), 2: items(5, [whole32(encoding) for encoding in encodings]), 3: items(8, [text(column.name)]),
        4: whole32(0), 5: whole64(rows), 6: whole64(size), 7: whole64(size), 9: whole64(place),
    })
    return struct_of({2: whole64(place), 3: meta})


def row_group(columns, chunks, rows):
    place, told = 4, []
    for column, data in zip(columns, chunks):
        told.append(column_chunk(column, place, len(data), rows))
        place += len(data)
    return struct_of({1: items(12, told), 2: whole64(place - 4), 3: whole64(rows)})


def entries(lo, hi):
    pairs = (('hi', str(hi)), ('lo', str(lo)), ('pages', 'plain'))
    return items(12, [struct_of({1: text(key), 2: text(value)}) for key, value in pairs])


def file_of(numbered, lo, hi):
    """The file of these rows, which are in order."""
    columns = columns_of(numbered)
    chunks = [chunk(column, numbered) for column in columns]
    groups = [row_group(columns, chunks, len(numbered))] if numbered else []
    footer = struct_of({
        1: whole32(1), 2: schema(columns), 3: whole64(len(numbered)), 4: items(12, groups), 5: entries(lo, hi),
        6: text('frostd'),
    })[1]
    return b'PAR1' + b''.join(chunks) + footer + struct.pack('<I', len(footer)) + b'PAR1'


# Sessions, and the rows that they write.

def row_key(numbered):
    """Rows by their order, and equal ones by their numbers."""
    number, row = numbered
    texts = tuple(part.encode() for part in row['type'][:5])
    stack = tuple(frame.encode() for frame in row['stack'])
    return (texts, label_key(row['labels']), row['timestamp'], stack, label_key(row['sample_labels']),
            row['period'], row['duration'], row['value'], number)


def session_of(rng, writes, most):
    """A session of so many writes, and their numbered rows in order."""
    requests, numbered = [], []
    for number in range(1, writes + 1):
        request, rows = plain_answers.write_of(rng, most)
        requests.append(request)
        numbered += [(number, row) for row in rows]
    return b''.join(requests), sorted(numbered, key=row_key)


def told_otherwise(found, lo, hi):
    """What the footer tells beside columns and rows that is not as it is written here, or None."""
    footer = found.footer
    if footer['version'] != 1 or found.created_by != 'frostd':
        return 'the version or the writer is another'
    if found.entries != [('hi', str(hi)), ('lo', str(lo)), ('pages', 'plain')]:
        return f'the entries are {found.entries}'
    if footer['schema'][0]['name'] != 'schema':
        return 'the root has another name'
    place = 4
    for chunk in footer['row_groups'][0]['columns'] if footer['row_groups'] else []:
        meta = chunk['meta_data']
        if (chunk['file_offset'], meta['data_page_offset']) != (place, place):
            return f'a chunk begins at {place}, and is told at {chunk["file_offset"]} and {meta["data_page_offset"]}'
        place += meta['total_compressed_size']
    return None


def difference(data, numbered, lo, hi):
    """Where what the reader finds is not these rows with this range, or None."""
    try:
        found = parquet_reader.read(data)
    except parquet_reader.Refused as why:
        return f'the reader refuses it: {why}'
    otherwise = told_otherwise(found, lo, hi)
    if otherwise:
        return otherwise
    columns = columns_of(numbered)
    if [(column.name, column.type, column.optional) for column in found.columns] != [(column.name, column.kind, column.optional) for column in columns]:
        return 'the columns are others'
    if len(found.rows) != len(numbered):
        return f'there are {len(found.rows)} rows, and {len(numbered)} were written'
    for at, (row, (number, written)) in enumerate(zip(found.rows, numbered)):
        for column in columns:
            wanted = column.cell(number, written)
            if row[column.name] != wanted:
                return f'row {at} has {row[column.name]!r} in {column.name}, and {wanted!r} was written'
    return None


VECTORS = [
    (hybrid([1] * 8, 1), '1001'),
    (hybrid([0, 1, 0, 1], 1), '030a'),
    (hybrid(list(range(8)), 3), '0388c6fa'),
    (hybrid([], 5), ''),
    (struct_of({1: whole32(1), 3: whole64(2)})[1], '1502260400'),
    (stack_bytes(['work', 'main']), '04000000776f726b040000006d61696e'),
    (page(Column('', BYTE_ARRAY, True, None), [None, b'a', b'b']), '1500152015202c1506150015061506000002000000030601000000610100000062'),
]


def check_spelling():
    """Some pieces of files are spelled as by hand."""
    for found, wanted in VECTORS:
        assert found.hex() == wanted, (found.hex(), wanted)


def check_reader():
    """A small file with a bit of its footer changed is refused, or something else is found in it."""
    _, numbered = session_of(random.Random(SMALL_SEED), 1, 1)
    data = file_of(numbered, 1, 1)
    assert numbered and difference(data, numbered, 1, 1) is None
    for at in range(parquet_reader.footer_of(data)[1], len(data)):
        changed = data[:at] + bytes([data[at] ^ 1 << at % 7]) + data[at + 1:]
        assert difference(changed, numbered, 1, 1) is not None, f'byte {at} of {len(data)} is another, and the same is read'


def stored(write):
    """Whether the stored run is that of the session of made writes."""
    session, numbered = session_of(random.Random(STORED_SEED), STORED_WRITES, STORED_SERIES)
    wanted = file_of(numbered, 1, STORED_WRITES)
    assert PAGE_ROWS < len(numbered) <= 2 * PAGE_ROWS
    assert difference(wanted, numbered, 1, STORED_WRITES) is None
    same = True
    for name, content in (('stdin', session), ('stdout', wanted)):
        path = FOLDER / name
        if write:
            path.write_bytes(content)
        same = same and path.read_bytes() == content
    print(f'{len(numbered)} rows of {STORED_WRITES} writes:', 'the stored run' if same else 'the stored run is another: run tools/block_file.py --stored --write')
    return 0 if same else 1


def write_file(out, program, writes, seed):
    """Writes the file of a made session, and compares it."""
    session, numbered = session_of(random.Random(seed), writes, MOST_SERIES)
    done = subprocess.run([program], input=session, stdout=subprocess.PIPE)
    out.write_bytes(done.stdout)
    if done.returncode != 0:
        print(f'the program ended with status {done.returncode}')
        return 1
    found = difference(done.stdout, numbered, 1, writes)
    if found is None and done.stdout != file_of(numbered, 1, writes):
        found = 'the rows are those written, and the file is spelled otherwise'
    print(f'{out}: {len(done.stdout)} bytes, {len(numbered)} rows of {writes} writes, ' + (found or 'as a plain list of rows gives them'))
    return 0 if found is None else 1


def main():
    if help_asked(sys.argv[1:], __doc__):
        return 0
    check_spelling()
    check_reader()
    if sys.argv[1:2] == ['--stored']:
        return stored(sys.argv[2:] == ['--write'])
    if len(sys.argv) < 2:
        print(__doc__.strip('\n'), file=sys.stderr)
        return 1
    program = program_of(sys.argv[2] if len(sys.argv) > 2 else None, FOLDER.name)
    writes = int(sys.argv[3]) if len(sys.argv) > 3 else 12
    seed = int(sys.argv[4]) if len(sys.argv) > 4 else 1
    return write_file(pathlib.Path(sys.argv[1]), program, writes, seed)


if __name__ == '__main__':
    sys.exit(main())
