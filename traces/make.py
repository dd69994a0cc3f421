#!/usr/bin/env python3
"""Makes binary traces from readable sources, and readable sources from binary traces.

    traces/make.py SOURCE.txt OUT.trace         one trace; a source with `trace NAME` lines wants a folder as OUT
    traces/make.py --back IN.trace [OUT.txt]    the source of a trace whose layout is right
    traces/make.py --all                        every stored trace, from its source to where it is kept
    traces/make.py --check                      which stored traces differ from what their source makes; 1 if any

README.md beside this file has the text form.
"""
import pathlib
import re
import struct
import sys

HERE = pathlib.Path(__file__).resolve().parent
DATA = HERE.parent / 'crates' / 'replay' / 'data'
ARGS = DATA.parent / 'args'
# Also kept beside its source, where a new reader looks first.
SHOWN = ('sample',)
# Recordings, and traces stored with the answers of the Rust, have no source: they are kept as they are.
SOURCELESS = ('linux61-*.trace', 'rust-*.trace')

HEADER = struct.Struct('<6I')
BLOCK = struct.Struct('<3Q10I16H2IQ16Q')
RECORD = struct.Struct('<IIQII')
BLOCK_AT = HEADER.size
RECORDS_AT = BLOCK_AT + BLOCK.size
ALL_ACCEPTED = 0xffffffff
KINDS = {'read': 1, 'write': 2, 'raise': 3}

# A name of the configuration: how wide it is, and what it is if not given.
BEFORE_SIZES = {'base': (64, 0xd0000000), 'size': (64, 0x2000), 'memory': (64, 0x10000000), 'type': (32, 2),
                'given': (32, 0), 'features': (32, 0), 'wildcard': (32, 0), 'msi': (32, 0), 'page0': (32, 0),
                'page1': (32, 0), 'vectors': (32, 0), 'queues': (32, 1), 'control': (32, 0)}
AFTER_SIZES = {'regions': (32, None), 'spare': (32, 0), 'list': (64, 0)}
NAMES = {**BEFORE_SIZES, **AFTER_SIZES}
USUAL_SIZE = 256
MOST_SIZES = 16
MOST_REGIONS = 8

REGISTERS = {'MagicValue': 0x000, 'Version': 0x004, 'DeviceID': 0x008, 'VendorID': 0x00c, 'DeviceFeatures': 0x010,
             'DeviceFeaturesSel': 0x014, 'DriverFeatures': 0x020, 'DriverFeaturesSel': 0x024, 'QueueSel': 0x030,
             'QueueNumMax': 0x034, 'QueueNum': 0x038, 'QueueReady': 0x044, 'QueueNotify': 0x050,
             'InterruptStatus': 0x060, 'InterruptACK': 0x064, 'Status': 0x070, 'QueueDescLow': 0x080,
             'QueueDescHigh': 0x084, 'QueueDriverLow': 0x090, 'QueueDriverHigh': 0x094, 'QueueDeviceLow': 0x0a0,
             'QueueDeviceHigh': 0x0a4, 'SHMSel': 0x0ac, 'SHMLenLow': 0x0b0, 'SHMLenHigh': 0x0b4, 'SHMBaseLow': 0x0b8,
             'SHMBaseHigh': 0x0bc, 'MsiCsr': 0x0c0, 'MsiCommand': 0x0c2, 'MsiAddressLow': 0x0c4,
             'MsiAddressHigh': 0x0c8, 'MsiData': 0x0cc, 'ConfigGeneration': 0x0fc, 'Config': 0x100}
NAME_OF = {offset: name for name, offset in REGISTERS.items()}


class Wrong(Exception):
    """What is wrong with a file, and what to do about it."""


class Line:
    """A line of a source: its place, for errors, and its words."""

    def __init__(self, place, words):
        self.place = place
        self.words = words

    def fail(self, what, advice):
        raise Wrong(f'{self.place}: {what}; {advice}')

    def number(self, word, bits):
        if not re.fullmatch(r'0x[0-9a-fA-F]+|[0-9]+', word):
            self.fail(f'`{word}` is no number', 'write it in decimal, or in hex after 0x')
        value = int(word, 16 if word.startswith('0x') else 10)
        if value >> bits:
            self.fail(f'{word} is wider than {bits} bits', f'write at most {hex((1 << bits) - 1)}')
        return value

    def hex_bytes(self, words):
        if not all(re.fullmatch('[0-9a-fA-F]{2}', word) for word in words):
            self.fail('bytes must be two hex digits each', 'write them as `01 ff`')
        return bytes.fromhex(''.join(words))

    def offset(self, word):
        name, plus, more = word.partition('+')
        if name in REGISTERS:
            return REGISTERS[name] + (self.number(more, 32) if plus else 0)
        if name[:1].isalpha():
            self.fail(f'no register is named `{name}`', 'use one of ' + ' '.join(REGISTERS) + ', or an offset')
        return self.number(word, 64)

    def arguments(self, least, most, usage):
        count = len(self.words) - 1
        if not least <= count <= most:
            self.fail(f'words after `{self.words[0]}`: {count}', f'write `{usage}`')
        return self.words[1:]


class Trace:
    """What a source says: configuration, records, pool, and damage done to the finished bytes."""

    def __init__(self):
        self.named = {name: usual for name, (_, usual) in NAMES.items()}
        self.sizes = None
        self.regions = []
        self.records = []
        self.pool = bytearray()
        self.damage = []

    def block(self):
        named = dict(self.named)
        if named['regions'] is None:
            named['regions'] = len(self.regions)
        sizes = self.sizes
        if sizes is None:
            sizes = [USUAL_SIZE] * min(named['queues'], MOST_SIZES)
        pairs = [number for region in self.regions for number in region]
        return BLOCK.pack(*(named[name] for name in BEFORE_SIZES), *filled(sizes, MOST_SIZES),
                          *(named[name] for name in AFTER_SIZES), *filled(pairs, 2 * MOST_REGIONS))

    def whole(self):
        count = len(self.records)
        header = HEADER.pack(1, count, BLOCK_AT, RECORDS_AT, RECORDS_AT + RECORD.size * count, len(self.pool))
        return header + self.block() + b''.join(RECORD.pack(*record) for record in self.records) + bytes(self.pool)

    def made(self):
        made = self.whole()
        for line in self.damage:
            made = DAMAGES[line.words[0]](line, made)
        return made


def filled(numbers, count):
    return list(numbers) + [0] * (count - len(numbers))


# --- from text to bytes ---

def set_name(trace, line):
    name = line.words[0]
    word, = line.arguments(1, 1, f'{name} NUMBER')
    trace.named[name] = line.number(word, NAMES[name][0])
    if name == 'features':
        trace.named['given'] = 1


def set_sizes(trace, line):
    words = line.arguments(1, MOST_SIZES, f'sizes NUMBER...` with {MOST_SIZES} at most; their count in use is `queues N')
    trace.sizes = [line.number(word, 16) for word in words]


def add_region(trace, line):
    if len(trace.regions) == MOST_REGIONS:
        line.fail(f'a trace has room for {MOST_REGIONS} regions', 'write `regions N` to state another count')
    offset, length = line.arguments(2, 2, 'region OFFSET LENGTH')
    trace.regions.append((line.number(offset, 64), line.number(length, 64)))


def outcome(line):
    """The outcome number at the line's end, taken off the line."""
    if line.words[-1].startswith('k='):
        return line.number(line.words[-1][2:], 32), Line(line.place, line.words[:-1])
    return ALL_ACCEPTED, line


def add_read(trace, line):
    k, line = outcome(line)
    offset, length = line.arguments(2, 2, 'read OFFSET LENGTH [k=N]')
    trace.records.append((KINDS['read'], k, line.offset(offset), line.number(length, 32), 0))


def add_raise(trace, line):
    k, line = outcome(line)
    bits, = line.arguments(1, 1, 'raise BITS [k=N]')
    trace.records.append((KINDS['raise'], k, line.number(bits, 64), 0, 0))


def add_record(trace, line):
    k, line = outcome(line)
    kind, offset, length, start = line.arguments(4, 4, 'record KIND OFFSET LENGTH START [k=N]')
    trace.records.append((line.number(kind, 32), k, line.offset(offset), line.number(length, 32),
                          line.number(start, 32)))


def value_bytes(line, word, length_word='4'):
    length = line.number(length_word, 16)
    value = line.number(word, 64)
    if value >> 8 * length:
        line.fail(f'{word} does not fit {length} bytes', 'give a smaller value, or a greater length after it')
    return value.to_bytes(length, 'little')


def add_write(trace, line):
    k, line = outcome(line)
    if line.words[2:3] == ['bytes']:
        added = line.hex_bytes(line.words[3:])
    else:
        usage = 'write OFFSET VALUE [LENGTH] [k=N]` or `write OFFSET bytes HEX... [k=N]'
        added = value_bytes(line, *line.arguments(2, 3, usage)[1:])
    trace.records.append((KINDS['write'], k, line.offset(line.words[1]), len(added), len(trace.pool)))
    trace.pool += added


def add_pool(trace, line):
    trace.pool += line.hex_bytes(line.arguments(1, sys.maxsize, 'pool HEX...'))


def with_number_set(line, made):
    place, width, value = line.arguments(3, 3, 'set PLACE WIDTH VALUE')
    place, width = line.number(place, 32), line.number(width, 8)
    if place + width > len(made):
        line.fail(f'the trace ends after {len(made)} bytes', 'set a place within them')
    return made[:place] + value_bytes(line, value, str(width)) + made[place + width:]


def with_end_cut(line, made):
    length = line.number(*line.arguments(1, 1, 'cut LENGTH'), 32)
    if length > len(made):
        line.fail(f'the trace has only {len(made)} bytes', 'cut to fewer, or use `pad`')
    return made[:length]


def with_zeros_added(line, made):
    length = line.number(*line.arguments(1, 1, 'pad LENGTH'), 32)
    if length < len(made):
        line.fail(f'the trace has {len(made)} bytes already', 'pad to more, or use `cut`')
    return made + bytes(length - len(made))


DAMAGES = {'set': with_number_set, 'cut': with_end_cut, 'pad': with_zeros_added}
FORMS = {**{name: set_name for name in NAMES}, 'sizes': set_sizes, 'region': add_region, 'read': add_read,
         'write': add_write, 'raise': add_raise, 'record': add_record, 'pool': add_pool,
         **{name: lambda trace, line: trace.damage.append(line) for name in DAMAGES}}


def read_lines(path):
    try:
        text = path.read_text(encoding='utf-8')
    except (OSError, UnicodeDecodeError) as error:
        raise Wrong(f'{shown(path)}: cannot be read ({error}); name a text file') from error
    for number, row in enumerate(text.split('\n'), 1):
        words = row.split('#')[0].split()
        if words:
            yield Line(f'{shown(path)}:{number}', words)


def shown(path):
    """A path as errors name it: from the repository's root where it is inside."""
    whole = path.resolve()
    return whole.relative_to(HERE.parent) if whole.is_relative_to(HERE.parent) else path


def expanded(lines, within=(), opened=None):
    """The lines with each part put in its place and each block repeated; `opened` is the block's first line."""
    out = []
    for line in lines:
        if line.words[0] == 'include':
            out += included(line, within)
        elif line.words[0] == 'repeat':
            times = line.number(*line.arguments(1, 1, 'repeat N'), 16)
            out += repeated(expanded(lines, within, line), times)
        elif line.words[0] == 'end':
            if opened is None:
                line.fail('`end` closes nothing', 'remove it, or write `repeat N` before it')
            return out
        else:
            out.append(line)
    if opened is not None:
        opened.fail('this block has no end', 'write `end` after its last line')
    return out


def repeated(lines, times):
    return [Line(line.place, [str(turn) if word == '$' else word for word in line.words])
            for turn in range(times) for line in lines]


def included(line, within):
    name, = line.arguments(1, 1, 'include NAME')
    path = HERE / 'parts' / f'{name}.txt'
    if name in within:
        line.fail(f'`{name}` includes itself', 'break the circle')
    if not path.is_file():
        line.fail(f'no part is named `{name}`', f'write {shown(path)}, or name one that is there')
    return expanded(read_lines(path), (*within, name))


def traces_of(path):
    """The traces of a source by name; what stands before the first `trace` line belongs to each."""
    common, named = [], {}
    lines = common
    for line in expanded(read_lines(path)):
        if line.words[0] == 'trace':
            name, = line.arguments(1, 1, 'trace NAME')
            if name in named or not re.fullmatch(r'\w[\w.-]*', name):
                line.fail(f'`{name}` is taken, or no name for a file', 'choose another, of letters, digits and -')
            lines = named[name] = list(common)
        else:
            lines.append(line)
    return {name: made_from(lines) for name, lines in (named or {path.stem: common}).items()}


def made_from(lines):
    trace = Trace()
    for line in lines:
        form = FORMS.get(line.words[0])
        if form is None:
            line.fail(f'`{line.words[0]}` begins no line', 'use one of trace include repeat end ' + ' '.join(FORMS))
        form(trace, line)
    return trace.made()


# --- from bytes to text ---

def parts_of(path, made):
    """Configuration block, records and pool of a trace, if its layout is right."""
    advice = 'only a trace whose layout is right can be turned back'
    if len(made) < RECORDS_AT:
        raise Wrong(f'{shown(path)}: {len(made)} bytes are too few for a configuration; {advice}')
    version, count, *rest = HEADER.unpack_from(made)
    pool_at = RECORDS_AT + RECORD.size * count
    if version != 1 or rest != [BLOCK_AT, RECORDS_AT, pool_at, len(made) - pool_at]:
        raise Wrong(f'{shown(path)}: version, counts or offsets in its first {HEADER.size} bytes are wrong; {advice}')
    records = [RECORD.unpack_from(made, RECORDS_AT + RECORD.size * i) for i in range(count)]
    return made[BLOCK_AT:RECORDS_AT], records, made[pool_at:]


def without_zeros(numbers):
    """The numbers up to the last that isn't zero, but one at least."""
    last = max((i for i, number in enumerate(numbers) if number), default=0)
    return numbers[:last + 1]


def block_text(block):
    numbers = BLOCK.unpack(block)
    first, last = len(BEFORE_SIZES), len(BEFORE_SIZES) + MOST_SIZES
    named = dict(zip(NAMES, numbers[:first] + numbers[last:]))
    pairs = numbers[last + len(AFTER_SIZES):]
    regions = [pairs[i:i + 2] for i in range(0, len(pairs), 2)]
    # `features` sets `given` to 1, so that it must come first of the two.
    order = sorted(NAMES, key=lambda name: name == 'given')
    skipped = ['features', 'given'] if not named['features'] and not named['given'] else []
    rows = [f'{name} {hex(named[name])}' for name in order if name not in skipped]
    rows.append('sizes ' + ' '.join(map(str, without_zeros(numbers[first:last]))))
    used = [i for i, region in enumerate(regions) if any(region)]
    rows += [f'region {hex(offset)} {hex(length)}' for offset, length in regions[:max(used, default=-1) + 1]]
    return rows


def offset_text(offset):
    return NAME_OF.get(offset, f'0x{offset:03x}')


def pool_text(pool):
    return ['pool ' + pool[i:i + 32].hex(' ') for i in range(0, len(pool), 32)]


def write_text(offset, data):
    if len(data) == 4:
        return f'write {offset_text(offset)} {hex(int.from_bytes(data, "little"))}'
    if len(data) in (1, 2, 8):
        return f'write {offset_text(offset)} {hex(int.from_bytes(data, "little"))} {len(data)}'
    return f'write {offset_text(offset)} bytes {data.hex(" ")}'.rstrip()


def record_text(kind, offset, length, start):
    if kind == KINDS['read'] and start == 0:
        return f'read {offset_text(offset)} {length}'
    if kind == KINDS['raise'] and length == start == 0:
        return f'raise {hex(offset)}'
    return f'record {kind} {offset_text(offset)} {length} {start}'


def back(path):
    """The lines of a source that makes this trace, to the byte."""
    block, records, pool = parts_of(path, path.read_bytes())
    rows, at = block_text(block), 0
    for kind, k, offset, length, start in records:
        if kind == KINDS['write'] and at <= start and start + length <= len(pool):
            rows += pool_text(pool[at:start])
            at = start + length
            row = write_text(offset, pool[start:at])
        else:
            row = record_text(kind, offset, length, start)
        rows.append(row if k == ALL_ACCEPTED else f'{row} k={k}')
    return rows + pool_text(pool[at:])


# --- the stored traces ---

def stored():
    """Each place where a trace is kept, with what its source makes."""
    places = {}
    for source in sorted(HERE.glob('*.txt')):
        for name, made in traces_of(source).items():
            if DATA / f'{name}.trace' in places:
                raise Wrong(f'{shown(source)}: another source makes `{name}` too; choose another name')
            for folder in [DATA] + [HERE] * (name in SHOWN):
                places[folder / f'{name}.trace'] = made
    return places


def make_all():
    places = stored()
    for path, made in places.items():
        path.write_bytes(made)
    print(f'{len(places)} traces made')


def faults(places):
    """A line for each stored trace that isn't what it should be."""
    named = ARGS.read_text(encoding='utf-8').split('\n')
    for path, made in places.items():
        if not path.is_file() or path.read_bytes() != made:
            yield f'{shown(path)}: differs from what its source makes; run traces/make.py --all'
    for path in sorted(DATA.iterdir()):
        if path not in places and not any(map(path.match, SOURCELESS)):
            yield f'{shown(path)}: no source makes it; remove it, or write its source'
        if path.name not in named:
            yield f'{shown(path)}: nothing replays it; name it in {shown(ARGS)}'
        if not returns(path):
            yield f'{shown(path)}: turned to text and back it is another; mend traces/make.py'


def returns(path):
    """Whether the trace comes back to the byte from its own text; one whose layout is wrong has none."""
    try:
        rows = back(path)
    except Wrong:
        return True
    return made_from([Line(f'{shown(path)} as text', row.split()) for row in rows]) == path.read_bytes()


def check():
    places = stored()
    found = list(faults(places))
    print('\n'.join(found) or f'{len(places)} traces are what their sources make')
    return 1 if found else 0


def make_from(source, out):
    traces = traces_of(source)
    if out.is_dir():
        for name, made in traces.items():
            (out / f'{name}.trace').write_bytes(made)
    elif len(traces) == 1:
        out.write_bytes(*traces.values())
    else:
        raise Wrong(f'{shown(source)}: makes {len(traces)} traces; name a folder to put them in')


def write_back(path, out=None):
    text = '\n'.join(back(path)) + '\n'
    if out is None:
        sys.stdout.write(text)
    else:
        out.write_text(text, encoding='utf-8')


def main(words):
    if words == ['--all']:
        return make_all()
    if words == ['--check']:
        return check()
    if words[:1] == ['--back'] and len(words) in (2, 3):
        return write_back(*map(pathlib.Path, words[1:]))
    if len(words) == 2 and not words[0].startswith('-'):
        return make_from(*map(pathlib.Path, words))
    print(__doc__.strip(), file=sys.stderr)
    return 2


if __name__ == '__main__':
    try:
        sys.exit(main(sys.argv[1:]))
    except (Wrong, OSError) as error:
        sys.exit(f'make.py: {error}')
