"""The lines that `flymon` writes, as docs/FORMATS.md describes them, read into blocks. All tools read outputs through `parse`.

A block is one of the tuples below. Each has `line`, the number of its first line from 1, and `packets`, how many packets the run
had taken before it. A line that FORMATS does not describe is a `Fault`, which has the number of that line.
"""
import re
import sys
from typing import NamedTuple, Optional

GREATEST = 4294967295
MOST_REGISTERS = 1 << 20
MOST_GROUPS = 12
MOST_CMUS = 4
MOST_UNITS = 4

Done = NamedTuple('Done', [('line', int), ('packets', int), ('word', str), ('task', str)])
Packets = NamedTuple('Packets', [('line', int), ('packets', int), ('count', int)])
Query = NamedTuple('Query', [('line', int), ('packets', int), ('task', str), ('answer', str)])
Card = NamedTuple('Card', [('line', int), ('packets', int), ('task', str), ('zeros', int), ('z', int), ('raw', int)])
Refused = NamedTuple('Refused', [('line', int), ('packets', int), ('word', str), ('task', str), ('reason', str)])
Dist = NamedTuple('Dist', [('line', int), ('packets', int), ('task', str), ('sizes', list)])
Stat = NamedTuple('Stat', [('line', int), ('packets', int), ('units', list), ('arrays', list)])
Show = NamedTuple('Show', [('line', int), ('packets', int), ('tasks', list)])
Array = NamedTuple('Array', [('free', int), ('largest', int), ('live', int)])
Partition = NamedTuple('Partition', [('base', int), ('size', int)])
Place = NamedTuple('Place', [('group', int), ('cmu', int), ('live', Partition), ('units', tuple), ('frozen', Optional[Partition])])
Task = NamedTuple('Task', [('name', str), ('kind', str), ('rows', int), ('key', str), ('attr', str), ('filter', str),
                           ('memory', int), ('places', list)])


class Cells(NamedTuple):
    """The cells of `read` or `frozen` (`word`); `cells` has (row, index, value) of those that are not the start value."""
    line: int
    packets: int
    word: str
    task: str
    rows: int
    size: int
    start: int
    cells: list

    def row(self, number):
        """All cells of a row, those at the start value too."""
        values = [self.start] * self.size
        for row, index, value in self.cells:
            if row == number:
                values[index] = value
        return values


class Fault(Exception):
    """What is wrong, and in which line."""

    def __init__(self, line, message):
        Exception.__init__(self, 'line %d: %s' % (line, message))
        self.line = line


# the fields of a key vector: name, first byte, bytes
FIELDS = [('src_ip', 0, 4), ('dst_ip', 4, 4), ('src_port', 8, 2), ('dst_port', 10, 2), ('proto', 12, 1), ('tos', 13, 1),
          ('ethertype', 14, 2), ('src_ip6', 16, 16), ('dst_ip6', 32, 16)]
FIELD_NAMES = [name for name, _, _ in FIELDS]
ADDRESS_BITS = {'src_ip': 32, 'dst_ip': 32, 'src_ip6': 128, 'dst_ip6': 128}
WEIGHTS = ('packets', 'bytes', 'ttl')
KINDS = {'cms': (4, WEIGHTS), 'sumax_sum': (4, WEIGHTS), 'sumax_max': (4, WEIGHTS), 'bloom': (4, ('flow',)),
         'mrac': (1, WEIGHTS), 'hll': (1, ('flow',)), 'flag_or': (4, ('flags',)), 'flag_and': (4, ('flags',))}

N = r'(0|[1-9][0-9]*)'
NAME = r'([a-z][a-z0-9_]{0,15})'
LINES = {word: re.compile(form) for word, form in {
    'done': r'(added|resized|removed|released) ' + NAME,
    'packets': 'packets ' + N,
    'query': 'query %s (%s|yes|no)' % (NAME, N),
    'card': 'card %s zeros %s z %s raw %s' % (NAME, N, N, N),
    'refused': r'refused (add|resize|remove|release|read|frozen|query|dist|card) ' + NAME + ' (.+)',
    'cells': r'(read|frozen) %s rows %s size %s start %s' % (NAME, N, N, N),
    'cell': 'cell %s %s %s' % (N, N, N),
    'dist': 'dist ' + NAME,
    'size': 'size %s cells %s' % (N, N),
    'show': 'tasks ' + N,
    'task': r'task %s ([a-z_]+) %s key=(\S+) attr=([a-z]+) filter=(\S+) memory=%s' % (NAME, N, N),
    'row': r'row %s group %s cmu %s base %s size %s keys ([0-3])(?:\+([0-3]))?(?: frozen base %s size %s)?' % ((N,) * 7),
    'stat': 'stat groups %s arrays %s' % (N, N),
    'group': r'group %s units((?: (?:-|[0-9a-f]{96}|[0-9a-f]{32}))+)' % N,
    'array': 'array %s free %s largest %s live %s' % (N, N, N, N),
}.items()}
REASONS = [(re.compile(form), words.split()) for form, words in [
    ('exists', 'add'),
    ('unknown', 'resize remove release read frozen query dist card'),
    ('frozen held', 'resize'),
    ('bad memory ' + N, 'add resize'),
    ('no (?:unit|partition) need [1-4] have [0-3]', 'add'),
    ('no room row [0-3]', 'resize'),
    ('nothing frozen', 'release frozen'),
    ('no answer', 'query dist card'),
    ('bad key', 'query'),
]]


def is_size(number):
    """Whether this is a power of two that an array may have."""
    return 1 <= number <= MOST_REGISTERS and number & (number - 1) == 0


def key_of_mask(mask):
    """The key whose mask this is, or None: the mask of a unit as hexadecimal digits."""
    octets = bytes.fromhex(mask).ljust(48, b'\0')
    items = []
    for name, first, length in FIELDS:
        bits = ''.join('{:08b}'.format(octet) for octet in octets[first:first + length])
        ones = len(bits.rstrip('0'))
        if '0' in bits[:ones] or (name not in ADDRESS_BITS and 0 < ones < len(bits)):
            return None
        if ones:
            items.append(name if ones == len(bits) else '%s/%d' % (name, ones))
    return ','.join(items) or None


def _is_value(name, value):
    """Whether this is the canonical spelling of a value of this field."""
    if name in ('src_ip', 'dst_ip'):
        return bool(re.fullmatch(r'%s\.%s\.%s\.%s' % (N, N, N, N), value)) and all(int(part) <= 255 for part in value.split('.'))
    if name in ('src_ip6', 'dst_ip6'):
        return bool(re.fullmatch(r'(?:(?:0|[1-9a-f][0-9a-f]{0,3}):){7}(?:0|[1-9a-f][0-9a-f]{0,3})', value))
    if name == 'ethertype':
        return bool(re.fullmatch('0x[0-9a-f]{4}', value))
    return bool(re.fullmatch(N, value)) and int(value) <= (255 if name in ('proto', 'tos') else 65535)


def _are_items(text, has_values):
    """Whether this is the canonical spelling of a key, or with values that of a filter."""
    last = -1
    for item in text.split(','):
        body, slash, prefix = item.partition('/')
        name, colon, value = body.partition(':')
        if name not in FIELD_NAMES or FIELD_NAMES.index(name) <= last or bool(colon) != has_values:
            return False
        if has_values and not _is_value(name, value):
            return False
        if slash and not (re.fullmatch('[1-9][0-9]*', prefix) and int(prefix) < ADDRESS_BITS.get(name, 0)):
            return False
        last = FIELD_NAMES.index(name)
    return True


class _Reader:
    """The lines of an output, one after another, and the blocks that begin at them."""

    def __init__(self, octets):
        self.lines = octets.split(b'\n')
        self.has_end = not self.lines[-1]
        if self.has_end:
            self.lines.pop()
        self.line = 0
        self.packets = 0

    def need(self, is_right, message):
        if not is_right:
            raise Fault(self.line, message)

    def take(self, block=None):
        """The next line; `block` is the block that needs one, where the text may not end."""
        if self.line == len(self.lines):
            raise Fault(max(self.line, 1), 'the output ends within a block of `%s`' % block)
        self.line += 1
        self.need(self.has_end or self.line < len(self.lines), 'the last line has no end: the output was cut')
        line = self.lines[self.line - 1]
        self.need(all(32 <= octet < 127 for octet in line), 'a byte that no output has')
        return line.decode('ascii')

    def numbers(self, form, line, wanted):
        """The numbers of a line of this form."""
        found = LINES[form].fullmatch(line)
        self.need(found, '`%s` where %s is expected' % (line[:60], wanted))
        return [int(group) for group in found.groups()]

    def block(self):
        """The block that begins at the next line."""
        line = self.take()
        for form, read in BLOCKS:
            found = LINES[form].fullmatch(line)
            if found:
                return read(self, found, self.line, self.packets)
        raise Fault(self.line, '`%s` is no line of an output' % line[:60])


def _done(reader, found, line, packets):
    return Done(line, packets, found.group(1), found.group(2))


def _packets(reader, found, line, packets):
    count = int(found.group(1))
    reader.need(count <= GREATEST, 'more packets than a capture has')
    reader.packets += count
    return Packets(line, packets, count)


def _query(reader, found, line, packets):
    task, answer = found.group(1), found.group(2)
    reader.need(answer in ('yes', 'no') or int(answer) <= GREATEST, 'an answer over %d' % GREATEST)
    return Query(line, packets, task, answer)


def _card(reader, found, line, packets):
    zeros, z, raw = (int(group) for group in found.groups()[1:])
    reader.need(zeros <= MOST_REGISTERS, 'more zeros than registers of an array')
    return Card(line, packets, found.group(1), zeros, z, raw)


def _refused(reader, found, line, packets):
    word, task, reason = found.groups()
    for form, words in REASONS:
        if form.fullmatch(reason) and word in words:
            return Refused(line, packets, word, task, reason)
    raise Fault(line, '`%s` is no reason to refuse `%s`' % (reason[:60], word))


def _cells(reader, found, line, packets):
    word, task = found.group(1), found.group(2)
    rows, size, start = (int(group) for group in found.groups()[2:])
    reader.need(1 <= rows <= 4 and is_size(size) and start in (0, GREATEST), 'rows, size or start that no task has')
    cells = []
    while True:
        text = reader.take(word)
        if text == 'end':
            return Cells(line, packets, word, task, rows, size, start, cells)
        row, index, value = reader.numbers('cell', text, '`cell ROW INDEX X` or `end`')
        reader.need(row < rows and index < size, 'a cell outside of %d rows of %d' % (rows, size))
        reader.need(not cells or cells[-1][:2] < (row, index), 'a cell that does not rise')
        reader.need(value <= GREATEST and value != start, 'a value over %d, or the start value' % GREATEST)
        cells.append((row, index, value))


def _dist(reader, found, line, packets):
    sizes = []
    while True:
        text = reader.take('dist')
        if text == 'end':
            reader.need(is_size(sum(cells for _, cells in sizes)), 'the cells of `dist` are no power of two together')
            return Dist(line, packets, found.group(1), sizes)
        value, cells = reader.numbers('size', text, '`size V cells C` or `end`')
        reader.need(not sizes or sizes[-1][0] < value, 'a size that does not rise')
        reader.need(value <= GREATEST and cells >= 1, 'a value over %d, or no cells' % GREATEST)
        sizes.append((value, cells))


def _place(reader, number, memory):
    """The next row of a task: it has this number and size."""
    line = reader.take('show')
    found = LINES['row'].fullmatch(line)
    reader.need(found, '`%s` where row %d of a task is expected' % (line[:60], number))
    row, group, cmu, base, size, unit, second, frozen_base, frozen_size = (
        None if text is None else int(text) for text in found.groups())
    reader.need(row == number and size == memory, 'row %d of %d where row %d of %d is expected' % (row, size, number, memory))
    reader.need(group < MOST_GROUPS and cmu < MOST_CMUS, 'a place that no switch has')
    parts = [Partition(base, size)] + ([] if frozen_base is None else [Partition(frozen_base, frozen_size)])
    for part in parts:
        reader.need(is_size(part.size) and part.base % part.size == 0 and part.base + part.size <= MOST_REGISTERS,
                    'a partition that is not aligned')
    reader.need(second is None or unit != second, 'a pair of one unit')
    units = (unit,) if second is None else (unit, second)
    return Place(group, cmu, parts[0], units, parts[1] if len(parts) == 2 else None)


def _task(reader):
    """The next task of a `show` with its rows."""
    line = reader.take('show')
    found = LINES['task'].fullmatch(line)
    reader.need(found, '`%s` where a task is expected' % line[:60])
    name, kind, rows, key, attr, filter_text, memory = found.groups()
    rows, memory = int(rows), int(memory)
    reader.need(kind in KINDS and 1 <= rows <= KINDS[kind][0] and attr in KINDS[kind][1], 'a kind, rows or attribute of no task')
    reader.need(_are_items(key, False), '`%s` is no key' % key[:60])
    reader.need(filter_text == 'all' or _are_items(filter_text, True), '`%s` is no filter' % filter_text[:60])
    return Task(name, kind, rows, key, attr, filter_text, memory, [_place(reader, row, memory) for row in range(rows)])


def _show(reader, found, line, packets):
    tasks = [_task(reader) for _ in range(int(found.group(1)))]
    last = reader.take('show')
    reader.need(last == 'end', '`%s` where `end` is expected behind %d tasks' % (last[:60], len(tasks)))
    reader.need(len({task.name for task in tasks}) == len(tasks), 'two tasks of one name')
    return Show(line, packets, tasks)


def _stat(reader, found, line, packets):
    groups, count = int(found.group(1)), int(found.group(2))
    reader.need(1 <= groups <= MOST_GROUPS and groups <= count <= groups * MOST_CMUS, 'groups or arrays of no switch')
    units, arrays = [], []
    for group in range(groups):
        text = reader.take('stat')
        match = LINES['group'].fullmatch(text)
        reader.need(match and int(match.group(1)) == group, '`%s` where group %d is expected' % (text[:60], group))
        masks = [None if mask == '-' else mask for mask in match.group(2).split()]
        reader.need(len(masks) <= MOST_UNITS, 'more units than a group has')
        for mask in masks:
            reader.need(mask is None or key_of_mask(mask), '`%s` is the mask of no key' % mask)
        units.append(masks)
    for array in range(count):
        number, *state = reader.numbers('array', reader.take('stat'), 'array %d' % array)
        reader.need(number == array, 'array %d where array %d is expected' % (number, array))
        free, largest, _ = state
        right = free == largest == 0 or (is_size(largest) and largest <= free <= MOST_REGISTERS)
        reader.need(right, '%d free registers with %d in the largest partition' % (free, largest))
        arrays.append(Array(*state))
    last = reader.take('stat')
    reader.need(last == 'end', '`%s` where `end` is expected behind %d arrays' % (last[:60], count))
    return Stat(line, packets, units, arrays)


BLOCKS = [('done', _done), ('packets', _packets), ('query', _query), ('card', _card), ('refused', _refused), ('cells', _cells),
          ('dist', _dist), ('show', _show), ('stat', _stat)]


def parse(octets):
    """The blocks of an output, in order."""
    reader = _Reader(octets)
    blocks = []
    while reader.line < len(reader.lines):
        blocks.append(reader.block())
    return blocks


def of_kind(blocks, what):
    """The blocks of `dist`, `read`, `frozen`, `show` or `stat`; `cells` are those of `read` and of `frozen`."""
    if what in ('read', 'frozen', 'cells'):
        return [block for block in blocks if type(block) is Cells and what in (block.word, 'cells')]
    wanted = {'dist': Dist, 'show': Show, 'stat': Stat}[what]
    return [block for block in blocks if type(block) is wanted]


def read_file(program, name):
    """The blocks of a file, `-` for standard input; a fault ends the program with one message and status 1."""
    try:
        if name == '-':
            octets = sys.stdin.buffer.read()
        else:
            with open(name, 'rb') as file:
                octets = file.read()
        return parse(octets)
    except OSError as fault:
        sys.exit('%s: %s: %s' % (program, name, fault.strerror))
    except Fault as fault:
        sys.exit('%s: %s: %s' % (program, 'standard input' if name == '-' else name, fault))
