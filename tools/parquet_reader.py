#!/usr/bin/env python3
"""Reads an Apache Parquet file without libraries, and prints it as lines of JSON.

usage: tools/parquet_reader.py FILE [--pyarrow]
    FILE: `tools/block_file.py FILE` writes one of frostd's
    prints a line {"schema": [..]}, a line {"created_by": .., "entries": [..]}, and a line {"row": {..}} for
    each row; a file that is refused ends it with status 1 and a line that says why
    --pyarrow also reads the file with pyarrow, where that can be imported, and compares

It is made from the public descriptions alone (parquet-format: README.md, parquet.thrift, Encodings.md;
Thrift's thrift-compact-protocol.md). It takes the files of at most one row group whose columns are INT64
or BYTE_ARRAY, required or optional and not nested, in data pages of version 1 with PLAIN values and
without compression. What such a file says twice must agree: the counts of rows and values, the sizes of
the file, the row group, the chunks and the pages, the places of the row group and of the chunks, the columns
of the schema and of the row group, the encodings and the checksums. A chunk's file_offset, which the
descriptions call deprecated, is 0 where it is not told, and else its first page. Fields that the descriptions
do not name are skipped.

A BYTE_ARRAY is printed as a text where it is UTF-8, and else as {"bytes": HEXADECIMAL}.
"""
import json
import pathlib
import struct
import sys
import zlib

from program import help_asked

MAGIC = b'PAR1'
DEEPEST = 32

# Thrift's compact protocol, the types of fields and list items.
TRUE, FALSE, I8, I16, I32, I64, DOUBLE, BINARY, LIST, SET, MAP, STRUCT, UUID = range(1, 14)
TYPE_NAMES = ('true', 'false', 'i8', 'i16', 'i32', 'i64', 'double', 'binary', 'list', 'set', 'map', 'struct', 'uuid')

# Parquet's enumerations, as far as they are taken.
INT64, BYTE_ARRAY = 2, 6
TYPES = {INT64: 'INT64', BYTE_ARRAY: 'BYTE_ARRAY'}
REQUIRED, OPTIONAL = 0, 1
REPETITIONS = {REQUIRED: 'REQUIRED', OPTIONAL: 'OPTIONAL'}
UNCOMPRESSED, PLAIN, RLE, DATA_PAGE = 0, 0, 3, 0


class Refused(Exception):
    """The file is none that this reader takes."""


def need(holds, why):
    if not holds:
        raise Refused(why)


class Shape:
    """A struct of parquet.thrift: for each field's number its name and kind; a '!' marks a required one.

    A kind is a type of Thrift, str for a binary that is UTF-8, a Shape, or a list of one kind. Fields that
    are of no use here are not named, and skipped as unknown ones are.
    """

    def __init__(self, name, /, **fields):
        self.name = name
        self.fields = {}
        for field, (number, kind, *required) in fields.items():
            self.fields[number] = (field, kind, bool(required))


KEY_VALUE = Shape('KeyValue', key=(1, str, '!'), value=(2, str))
SCHEMA_ELEMENT = Shape(
    'SchemaElement', type=(1, I32), type_length=(2, I32), repetition_type=(3, I32), name=(4, str, '!'),
    num_children=(5, I32), converted_type=(6, I32))
COLUMN_META_DATA = Shape(
    'ColumnMetaData', type=(1, I32, '!'), encodings=(2, [I32], '!'), path_in_schema=(3, [str], '!'), codec=(4, I32, '!'),
    num_values=(5, I64, '!'), total_uncompressed_size=(6, I64, '!'), total_compressed_size=(7, I64, '!'),
    key_value_metadata=(8, [KEY_VALUE]), data_page_offset=(9, I64, '!'), index_page_offset=(10, I64),
    dictionary_page_offset=(11, I64))
COLUMN_CHUNK = Shape(
    'ColumnChunk', file_path=(1, str), file_offset=(2, I64, '!'), meta_data=(3, COLUMN_META_DATA),
    crypto_metadata=(8, STRUCT))
ROW_GROUP = Shape(
    'RowGroup', columns=(1, [COLUMN_CHUNK], '!'), total_byte_size=(2, I64, '!'), num_rows=(3, I64, '!'),
    file_offset=(5, I64), total_compressed_size=(6, I64), ordinal=(7, I16))
FILE_META_DATA = Shape(
    'FileMetaData', version=(1, I32, '!'), schema=(2, [SCHEMA_ELEMENT], '!'), num_rows=(3, I64, '!'),
    row_groups=(4, [ROW_GROUP], '!'), key_value_metadata=(5, [KEY_VALUE]), created_by=(6, str),
    encryption_algorithm=(8, STRUCT))
DATA_PAGE_HEADER = Shape(
    'DataPageHeader', num_values=(1, I32, '!'), encoding=(2, I32, '!'), definition_level_encoding=(3, I32, '!'),
    repetition_level_encoding=(4, I32, '!'))
PAGE_HEADER = Shape(
    'PageHeader', type=(1, I32, '!'), uncompressed_page_size=(2, I32, '!'), compressed_page_size=(3, I32, '!'),
    crc=(4, I32), data_page_header=(5, DATA_PAGE_HEADER))


class Cursor:
    """Reads one piece of the file from left to right."""

    def __init__(self, data, at, end, what):
        self.data, self.at, self.end, self.what = data, at, end, what

    def take(self, size):
        need(0 <= size <= self.end - self.at, f'{self.what} ends within a value at {self.at}')
        piece = self.data[self.at:self.at + size]
        self.at += size
        return piece

    def byte(self):
        return self.take(1)[0]

    def varint(self, bits):
        """A number in groups of seven bits, the lowest first, that fits so many bits."""
        start, value, shift = self.at, 0, 0
        while True:
            byte = self.byte()
            value |= (byte & 127) << shift
            need(value < 1 << bits and shift < 70, f'{self.what} has a number that is too large at {start}')
            if byte < 128:
                return value
            shift += 7

    def signed(self, bits):
        """A number in zigzag order."""
        value = self.varint(bits)
        return value >> 1 ^ -(value & 1)

    def done(self):
        need(self.at == self.end, f'{self.what} has {self.end - self.at} bytes too many')


def items_of(cursor, kind, count, depth):
    # A truth value is a byte of its own in a list.
    if kind in (TRUE, FALSE):
        return [cursor.byte() == TRUE for _ in range(count)]
    return [value_of(cursor, kind, depth) for _ in range(count)]


def map_of(cursor, depth):
    count = cursor.varint(31)
    if count == 0:
        return []
    kinds = cursor.byte()
    keys, values = kinds >> 4, kinds & 15
    return [(items_of(cursor, keys, 1, depth), items_of(cursor, values, 1, depth)) for _ in range(count)]


def list_of(cursor, depth):
    """The type of the items, and the items."""
    head = cursor.byte()
    count, kind = head >> 4, head & 15
    if count == 15:
        count = cursor.varint(31)
    return kind, items_of(cursor, kind, count, depth)


def struct_of(cursor, depth):
    """The type and the value of each field by its number."""
    fields, last = {}, 0
    while True:
        head = cursor.byte()
        if head == 0:
            return fields
        step, kind = head >> 4, head & 15
        number = last + step if step else cursor.signed(16)
        need(number not in fields, f'{cursor.what} has field {number} twice at {cursor.at}')
        fields[number] = (kind, kind == TRUE if kind in (TRUE, FALSE) else value_of(cursor, kind, depth))
        last = number


def value_of(cursor, kind, depth):
    """A value that is no truth value."""
    need(depth < DEEPEST, f'{cursor.what} is too deep at {cursor.at}')
    if kind == I8:
        return struct.unpack('<b', cursor.take(1))[0]
    if kind in (I16, I32, I64):
        return cursor.signed({I16: 16, I32: 32, I64: 64}[kind])
    if kind == DOUBLE:
        return struct.unpack('<d', cursor.take(8))[0]
    if kind == BINARY:
        return cursor.take(cursor.varint(31))
    if kind in (LIST, SET):
        return list_of(cursor, depth + 1)
    if kind == MAP:
        return map_of(cursor, depth + 1)
    if kind == STRUCT:
        return struct_of(cursor, depth + 1)
    need(kind == UUID, f'{cursor.what} has a value of the unknown type {kind} at {cursor.at}')
    return cursor.take(16)


def wire_type(kind):
    if isinstance(kind, list):
        return LIST
    if isinstance(kind, Shape):
        return STRUCT
    return BINARY if kind is str else kind


def shaped(kind, value, where):
    """A value of Thrift as the kind has it: structs become dictionaries by name."""
    if isinstance(kind, Shape):
        return named(kind, value)
    if isinstance(kind, list):
        found, items = value
        need(not items or found == wire_type(kind[0]), f'the items of {where} are of another type')
        return [shaped(kind[0], item, where) for item in items]
    if kind is str:
        try:
            return value.decode()
        except UnicodeDecodeError:
            raise Refused(f'{where} is not UTF-8') from None
    return value


def named(shape, fields):
    """The fields of a struct by their names, None for those that are absent."""
    out = {}
    for number, (field, kind, required) in shape.fields.items():
        where = f'{shape.name}.{field}'
        if number not in fields:
            need(not required, f'{where} is missing')
            out[field] = None
            continue
        found, value = fields[number]
        need(found == wire_type(kind), f'{where} has the type {TYPE_NAMES[found - 1]}')
        out[field] = shaped(kind, value, where)
    return out


class Column:
    """A column of the schema."""

    def __init__(self, element):
        name = self.name = element['name']
        need(element['num_children'] in (None, 0), f'the schema is nested at {name}')
        need(element['type'] in TYPES, f'column {name} has the type {element["type"]}')
        need(element['repetition_type'] in REPETITIONS, f'column {name} has the repetition {element["repetition_type"]}')
        self.type = element['type']
        self.optional = element['repetition_type'] == OPTIONAL

    def described(self):
        return {'name': self.name, 'type': TYPES[self.type], 'repetition': REPETITIONS[int(self.optional)]}


def columns_of(schema):
    need(schema, 'the schema is empty')
    root = schema[0]
    need(root['type'] is None and root['num_children'] is not None, 'the first element of the schema is no root')
    need(root['num_children'] == len(schema) - 1, f'the root has {root["num_children"]} children, and {len(schema) - 1} elements follow')
    columns = [Column(element) for element in schema[1:]]
    need(len({column.name for column in columns}) == len(columns), 'two columns have one name')
    return columns


def packed(cursor, width, groups):
    """Groups of eight values, from the lowest bit of the first byte upwards."""
    bits = int.from_bytes(cursor.take(groups * width), 'little')
    return [bits >> at * width & (1 << width) - 1 for at in range(groups * 8)]


def hybrid(cursor, width, count):
    """So many values in runs, repeated or packed, which are all that the cursor has."""
    values = []
    while len(values) < count:
        head = cursor.varint(32)
        need(head >> 1, f'{cursor.what} has an empty run')
        if head & 1:
            values += packed(cursor, width, head >> 1)
            need(len(values) - count < 8, f'{cursor.what} has a packed run that is too long')
        else:
            value = int.from_bytes(cursor.take((width + 7) // 8), 'little')
            need(value < 1 << width, f'{cursor.what} repeats {value}')
            need(head >> 1 <= count - len(values), f'{cursor.what} has a repeated run that is too long')
            values += [value] * (head >> 1)
    cursor.done()
    return values[:count]


def plain(cursor, kind):
    if kind == INT64:
        return struct.unpack('<q', cursor.take(8))[0]
    return cursor.take(struct.unpack('<I', cursor.take(4))[0])


def definitions(cursor, count):
    """Whether each value is there."""
    size = struct.unpack('<I', cursor.take(4))[0]
    start = cursor.at
    cursor.take(size)
    return hybrid(Cursor(cursor.data, start, start + size, f'the levels of {cursor.what}'), 1, count)


def page_of(cursor, column, encodings, left):
    """The values of the page at the cursor, at most so many, None for those that are absent."""
    where = cursor.what = f'the page of {column.name} at {cursor.at}'
    header = named(PAGE_HEADER, struct_of(cursor, 0))
    need(header['type'] == DATA_PAGE and header['data_page_header'], f'{where} is no data page of version 1')
    data = header['data_page_header']
    size, count = header['compressed_page_size'], data['num_values']
    need(size == header['uncompressed_page_size'], f'{where} has two sizes')
    need(0 <= count <= left, f'{where} has {count} values, where {left} are left')
    need(data['encoding'] == PLAIN, f'{where} has the encoding {data["encoding"]}')
    need(not column.optional or data['definition_level_encoding'] == RLE, f'{where} has levels that are no hybrid runs')
    used = {PLAIN, RLE} if column.optional else {PLAIN}
    need(used <= encodings, f'{where} has an encoding that its chunk does not tell')
    start = cursor.at
    body = cursor.take(size)
    need(header['crc'] in (None, struct.unpack('<i', struct.pack('<I', zlib.crc32(body)))[0]), f'{where} has another checksum')
    inner = Cursor(cursor.data, start, start + size, where)
    there = definitions(inner, count) if column.optional else [1] * count
    values = [plain(inner, column.type) if level else None for level in there]
    inner.done()
    return values


def place_of(meta):
    """Where the chunk begins, and where it ends."""
    start = meta['data_page_offset']
    return start, start + meta['total_compressed_size']


def check_chunk(chunk, column, rows):
    meta = chunk['meta_data']
    need(chunk['file_path'] is None, f'the chunk of {column.name} is in another file')
    need(meta is not None and chunk['crypto_metadata'] is None, f'the chunk of {column.name} is encrypted, or not told')
    need(meta['path_in_schema'] == [column.name], f'the chunk of {column.name} is that of {meta["path_in_schema"]}')
    need(meta['type'] == column.type, f'the chunk of {column.name} has the type {meta["type"]}')
    need(meta['codec'] == UNCOMPRESSED, f'the chunk of {column.name} is compressed')
    need(meta['dictionary_page_offset'] is None, f'the chunk of {column.name} has a dictionary')
    need(meta['total_compressed_size'] == meta['total_uncompressed_size'], f'the chunk of {column.name} has two sizes')
    need(meta['total_compressed_size'] >= 0, f'the chunk of {column.name} has a negative size')
    need(chunk['file_offset'] in (0, meta['data_page_offset']), f'the chunk of {column.name} has two places, {chunk["file_offset"]} and {meta["data_page_offset"]}')
    need(meta['num_values'] == rows, f'the chunk of {column.name} has {meta["num_values"]} values for {rows} rows')


def chunk_of(data, chunk, column, rows):
    """The values of a column."""
    check_chunk(chunk, column, rows)
    meta = chunk['meta_data']
    cursor = Cursor(data, *place_of(meta), '')
    values = []
    while cursor.at < cursor.end:
        values += page_of(cursor, column, set(meta['encodings']), rows - len(values))
    need(len(values) == rows, f'the pages of {column.name} have {len(values)} values for {rows} rows')
    return values


def check_places(group, end):
    """The chunks stand between the magic and the footer, and share no byte."""
    at = len(MAGIC)
    places = [place_of(chunk['meta_data']) for chunk in group['columns'] if chunk['meta_data']]
    for start, stop in sorted(place for place in places if place[0] != place[1]):
        need(at <= start and stop <= end, f'a chunk stands from {start} to {stop}, where {at} to {end} is free')
        at = stop


def group_of(data, group, columns, end):
    """The columns' values."""
    chunks, rows = group['columns'], group['num_rows']
    need(rows >= 0, f'the row group has {rows} rows')
    need(len(chunks) == len(columns), f'there are {len(chunks)} chunks for {len(columns)} columns')
    check_places(group, end)
    need(group['file_offset'] in (None, min((place_of(chunk['meta_data'])[0] for chunk in chunks if chunk['meta_data']), default=None)), f'the row group stands at {group["file_offset"]}, and its first chunk does not')
    values = [chunk_of(data, chunk, column, rows) for chunk, column in zip(chunks, columns)]
    size = sum(chunk['meta_data']['total_uncompressed_size'] for chunk in chunks)
    need(group['total_byte_size'] == size, f'the row group says {group["total_byte_size"]} bytes, and its chunks {size}')
    need(group['total_compressed_size'] in (None, size), f'the row group says {group["total_compressed_size"]} bytes, and its chunks {size}')
    return values


class File:
    """What a file has: its columns, its key-value entries and its rows, each a value by each name; and its footer."""

    def __init__(self, columns, rows, footer):
        self.columns, self.rows, self.footer = columns, rows, footer
        self.entries = [(entry['key'], entry['value']) for entry in footer['key_value_metadata'] or []]
        self.created_by = footer['created_by']


def footer_of(data):
    """The footer, and where it begins."""
    need(len(data) >= 12, 'there are fewer than 12 bytes')
    need(data.startswith(MAGIC) and data.endswith(MAGIC), 'the magic is missing')
    end = len(data) - 8
    start = end - struct.unpack('<I', data[end:end + 4])[0]
    need(start >= len(MAGIC), 'the footer is longer than the file')
    cursor = Cursor(data, start, end, 'the footer')
    footer = named(FILE_META_DATA, struct_of(cursor, 0))
    cursor.done()
    return footer, start


def read(data):
    """The file of these bytes, or Refused."""
    footer, end = footer_of(data)
    need(footer['version'] in (1, 2), f'the version is {footer["version"]}')
    need(footer['encryption_algorithm'] is None, 'the file is encrypted')
    columns = columns_of(footer['schema'])
    groups = footer['row_groups']
    need(len(groups) <= 1, f'there are {len(groups)} row groups')
    count = sum(group['num_rows'] for group in groups)
    need(footer['num_rows'] == count, f'the file says {footer["num_rows"]} rows, and its row groups {count}')
    names = [column.name for column in columns]
    values = group_of(data, groups[0], columns, end) if groups else []
    rows = [dict(zip(names, cells)) for cells in zip(*values)]
    return File(columns, rows, footer)


def printed(value):
    if not isinstance(value, bytes):
        return value
    try:
        return value.decode()
    except UnicodeDecodeError:
        return {'bytes': value.hex()}


def lines_of(file):
    yield {'schema': [column.described() for column in file.columns]}
    yield {'created_by': file.created_by, 'entries': [{'key': key, 'value': value} for key, value in file.entries]}
    for row in file.rows:
        yield {'row': {name: printed(value) for name, value in row.items()}}


def compare_pyarrow(path, file):
    """Whether pyarrow reads the same, in a line."""
    try:
        import pyarrow
        import pyarrow.parquet
    except ImportError:
        return True, 'pyarrow cannot be imported'
    table = pyarrow.parquet.read_table(path)
    entries = {key.encode(): value.encode() for key, value in file.entries if value is not None}
    found = {key: value for key, value in (table.schema.metadata or {}).items() if key in entries}
    same = table.to_pylist() == file.rows and table.column_names == [column.name for column in file.columns] and found == entries
    return same, f'pyarrow {pyarrow.__version__} reads {"the same" if same else "something else"}'


def main():
    if help_asked(sys.argv[1:], __doc__):
        return 0
    paths = [word for word in sys.argv[1:] if word != '--pyarrow']
    if len(paths) != 1:
        print(__doc__.strip('\n'), file=sys.stderr)
        return 1
    try:
        file = read(pathlib.Path(paths[0]).read_bytes())
    except (OSError, Refused) as why:
        print(f'{paths[0]}: {why}', file=sys.stderr)
        return 1
    for line in lines_of(file):
        print(json.dumps(line))
    if '--pyarrow' not in sys.argv[1:]:
        return 0
    same, said = compare_pyarrow(paths[0], file)
    print(said, file=sys.stderr)
    return 0 if same else 1


if __name__ == '__main__':
    sys.exit(main())
