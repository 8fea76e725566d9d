"""Pictures of `dist`, and of the cells of `read` and `frozen`. Lengths are in inches."""
import functools
import io
import math
import re

import matplotlib
from matplotlib.collections import PatchCollection
from matplotlib.colors import LinearSegmentedColormap, LogNorm, Normalize, to_rgb
from matplotlib.figure import Figure
from matplotlib.font_manager import FontProperties
from matplotlib.patches import Rectangle
from matplotlib.textpath import text_to_path
from matplotlib.ticker import MaxNLocator

# Paul Tol's light colours: told apart by colour-blind readers, and black text is legible on each
PALETTE = ['#77aadd', '#ee8866', '#44bb99', '#eedd88', '#ffaabb', '#bbcc33', '#99ddff', '#aaaa00']
INK = '#222222'
SOFT = '#767676'
GRID = '#dddddd'
BLANK = '#f6f6f6'

matplotlib.rcParams.update({
    'font.family': 'DejaVu Sans', 'font.size': 9, 'text.color': INK, 'axes.labelcolor': INK, 'axes.edgecolor': SOFT,
    'xtick.color': INK, 'ytick.color': INK, 'axes.linewidth': 0.7, 'xtick.major.width': 0.7, 'ytick.major.width': 0.7,
    'axes.spines.top': False, 'axes.spines.right': False, 'hatch.linewidth': 0.5, 'hatch.color': '#888888',
    'svg.hashsalt': 'flymon', 'svg.fonttype': 'path',
})

# cells with digits in them are this wide, and no picture of cells is wider
CELL = 0.26
WIDEST = 8.4
# from here on cells are drawn as an image inside the SVG
MOST_SHAPES = 20000


def save(figure, file, form):
    """Writes a figure, to the same bytes each time."""
    octets = io.BytesIO()
    metadata = {'Date': None, 'Creator': None} if form == 'svg' else {'Software': None}
    figure.savefig(octets, format=form, dpi=150, metadata=metadata, facecolor='white')
    picture = octets.getvalue()
    if form == 'svg':
        picture = shorten(picture)
    if hasattr(file, 'write'):
        file.write(picture)
    else:
        with open(file, 'wb') as opened:
            opened.write(picture)


def shorten(picture):
    """The same SVG without comments, indents, names of groups, and digits that nobody sees."""
    picture = re.sub(rb'<!--.*?-->|(?<=<g) id="[^"]*"', b'', picture, flags=re.DOTALL)
    picture = re.sub(rb'\s*\n\s*', b'\n', picture).replace(b'DejaVuSans-', b'g')
    return re.sub(rb'^(?:<path d=")?[ML] .*|translate\([^)]*\)| x="[^"]*"',
                  lambda found: re.sub(rb'(\.\d\d)\d+', rb'\1', found.group()), picture, flags=re.MULTILINE)


def mix(colour, other, part):
    """A colour with so great a part of another."""
    return tuple((1 - part) * one + part * two for one, two in zip(to_rgb(colour), to_rgb(other)))


@functools.lru_cache(maxsize=None)
def text_width(text, size):
    """How wide a text of this size in points is."""
    return text_to_path.get_text_width_height_descent(text, FontProperties(size=size), False)[0] / 72


def counted(number, word):
    """`1 packet`, `12 packets`."""
    return '%s %s%s' % ('{:,}'.format(number), word, '' if number == 1 else 's')


def unit_of(attr):
    """The unit of a value, where a `show` of the run told the attribute of its task."""
    return attr if attr in ('packets', 'bytes', 'ttl', 'flags') else 'value'


def heading(axes, title, note):
    """A title at the left, and behind it what it is of."""
    axes.set_title(title, loc='left', fontsize=10.5, fontweight='bold', pad=20)
    axes.annotate(note, (0, 1), (0, 7), xycoords='axes fraction', textcoords='offset points', fontsize=9, color=SOFT)


def draw_dist(block, colour, attr):
    """Bars: how many registers hold each value. Registers that hold 0 are told in the heading, since they outnumber the others."""
    sizes = [size for size in block.sizes if size[0]]
    total = sum(cells for _, cells in block.sizes)
    zeros = total - sum(cells for _, cells in sizes)
    figure = Figure(figsize=(7.2, 3.3))
    axes = figure.add_axes([0.09, 0.15, 0.89, 0.68])
    heading(axes, '%s: how many registers hold each value' % block.task,
            'after %s; %s of %s hold 0' % (counted(block.packets, 'packet'), '{:,}'.format(zeros), counted(total, 'register')))
    axes.set_ylabel('registers')
    axes.yaxis.get_major_locator().set_params(integer=True)
    if sizes:
        draw_bars(axes, sizes, colour)
    unit = '' if unit_of(attr) == 'value' else ' (%s)' % attr
    axes.set_xlabel('value of the register' + unit + ('' if is_even(sizes) else ', each that occurs'))
    return figure


def is_even(sizes):
    """Whether bars stand on an axis of numbers: few numbers lie between the values, or there are too many values to name each."""
    values = [value for value, _ in sizes]
    return not values or max(values) - min(values) <= 60 or len(values) > 40


def draw_bars(axes, sizes, colour):
    """A bar a value, with its number on it where they are few."""
    values, cells = zip(*sizes)
    edge = mix(colour, 'black', 0.45)
    if len(values) > 40 and max(values) - min(values) > 60:
        axes.vlines(values, 0, cells, color=edge, linewidth=1.2)
        if max(values) > 100 * min(values):
            axes.set_xscale('log')
    else:
        places = values if is_even(sizes) else range(len(values))
        axes.bar(places, cells, 0.8, color=colour, edgecolor=edge, linewidth=0.7)
        if not is_even(sizes):
            axes.set_xticks(list(places))
            axes.set_xticklabels(['{:,}'.format(value) for value in values], rotation=0 if len(values) <= 20 else 90)
        elif max(values) - min(values) <= 24:
            axes.set_xticks(range(min(values), max(values) + 1))
        if len(values) <= 40:
            for place, number in zip(places, cells):
                axes.annotate('{:,}'.format(number), (place, number), (0, 2), textcoords='offset points', ha='center', fontsize=8)
    axes.set_ylim(0, max(cells) * 1.08)


def line_length(size):
    """How many registers stand side by side: a row of many goes on in the next line, so that its cells can be seen."""
    return min(size, max(32, 1 << math.ceil(math.log2(size * 2) / 2)))


def cell_map(colour):
    """From a tint of a colour to its darkest: what lightness tells needs no colours."""
    return LinearSegmentedColormap.from_list('cells', [mix(colour, 'white', 0.5), colour, mix(colour, 'black', 0.75)], N=48)


def draw_cells(blocks, colour, attr):
    """Strips of the cells of one block, or of two side by side under one scale."""
    lengths = [line_length(block.size) for block in blocks]
    left, gap, bottom, top = 0.75, 0.85, 0.55, 0.62
    width = min(CELL, (WIDEST - gap * (len(blocks) - 1)) / sum(lengths))
    lines = [block.rows * (block.size // length) for block, length in zip(blocks, lengths)]
    heights = [lines[number] * width + (block.rows - 1) * row_gap(block, width) for number, block in enumerate(blocks)]
    has_bar = not digits_fit(blocks, width)
    size = (max(4.2, left + sum(lengths) * width + gap * (len(blocks) - 1) + (1.0 if has_bar else 0.2)),
            bottom + max(heights + [1.0 if has_bar else 0]) + top)
    figure = Figure(figsize=size)
    values = [value for block in blocks for _, _, value in block.cells] or [1]
    is_log = min(values) > 0 and max(values) > 1000 * min(values)
    norm = LogNorm(min(values), max(values)) if is_log else Normalize(min(0, min(values)), max(values))
    for block, length, height in zip(blocks, lengths, heights):
        axes = figure.add_axes([left / size[0], 1 - (top + height) / size[1], length * width / size[0], height / size[1]])
        draw_strips(axes, block, length, width, norm, cell_map(colour), not has_bar)
        left += length * width + gap
    if has_bar:
        add_scale(figure, (left - gap + 0.2, top), size, norm, cell_map(colour), unit_of(attr))
    return figure


def row_gap(block, width):
    """The room between two rows: more where a row goes on in further lines."""
    return 0.16 if block.size > line_length(block.size) else width * 0.35


def digits_fit(blocks, width):
    """Whether the greatest value can be written in a cell."""
    return all(text_width(str(value), 6.5) < width * 0.94 for block in blocks for _, _, value in block.cells) and width > 0.15


def add_scale(figure, place, size, norm, colours, label):
    """The bar that tells what the colours mean; what is not on it is the start value."""
    axes = figure.add_axes([place[0] / size[0], 1 - (place[1] + 1.0) / size[1], 0.12 / size[0], 1.0 / size[1]])
    bar = figure.colorbar(matplotlib.cm.ScalarMappable(norm, colours), cax=axes)
    bar.outline.set_visible(False)
    bar.solids.set_rasterized(False)
    bar.solids.set_edgecolor('face')
    if type(norm) is Normalize:
        axes.yaxis.set_major_locator(MaxNLocator(4, integer=True))
    axes.tick_params(labelsize=7.5)
    axes.set_title(label, fontsize=8, loc='left', pad=6)


def draw_strips(axes, block, length, width, norm, colours, has_digits):
    """The rows of a block, one above the other; a cell is one wide and one high."""
    lines = block.size // length
    step = lines + row_gap(block, width) / width
    axes.set_xlim(0, length)
    axes.set_ylim(step * (block.rows - 1) + lines, 0)
    for row in range(block.rows):
        axes.add_patch(Rectangle((0, row * step), length, lines, facecolor=BLANK, linewidth=0, zorder=1))
        axes.add_patch(Rectangle((0, row * step), length, lines, fill=False, edgecolor=SOFT, linewidth=0.7, zorder=5,
                                 clip_on=False))
        if width > 0.05:
            draw_grid(axes, row * step, length, lines)
    shapes = [Rectangle((index % length, row * step + index // length), 1, 1) for row, index, _ in block.cells]
    if shapes:
        cells = PatchCollection(shapes, cmap=colours, norm=norm, linewidth=0.4 if width > 0.05 else 0,
                                edgecolor=mix(colours(0.5), 'black', 0.35), zorder=3, rasterized=len(shapes) > MOST_SHAPES)
        cells.set_array([value for _, _, value in block.cells])
        axes.add_collection(cells)
    for row, index, value in block.cells if has_digits else []:
        red, green, blue, _ = colours(norm(value))
        ink = 'white' if 0.3 * red + 0.6 * green + 0.1 * blue < 0.52 else INK
        axes.text(index % length + 0.5, row * step + index // length + 0.52, value, ha='center', va='center', fontsize=6.5,
                  color=ink, zorder=4)
    label_strips(axes, block, length, step)


def draw_grid(axes, top, length, lines):
    """Lines between cells, as one path."""
    places = [(place, place, top, top + lines) for place in range(1, length)]
    places += [(0, length, top + line, top + line) for line in range(1, lines)]
    ends = [end for left, right, high, low in places for end in ((left, high), (right, low), (math.nan, math.nan))]
    axes.plot(*zip(*ends), color=GRID, linewidth=0.4, zorder=2)


def label_strips(axes, block, length, step):
    """The numbers of the registers, and what the block is."""
    lines = block.size // length
    ticks, names = [], []
    every = max(1, lines // 8)
    for row in range(block.rows):
        for line in range(0, lines, every):
            ticks.append(row * step + line + 0.5)
            name = '{:,}'.format(line * length) if lines > 1 else ''
            names.append('row %d %s%s' % (row, ' ' if name else '', name) if line == 0 else name)
    axes.set_yticks(ticks)
    axes.set_yticklabels(names, fontsize=7.5)
    places = range(0, length, max(1, length // 8))
    axes.set_xticks([place + 0.5 for place in places])
    axes.set_xticklabels(places, fontsize=7.5)
    axes.set_xlabel('register' if lines == 1 else 'register, counted from the number at the left', fontsize=8.5)
    axes.tick_params(length=0, pad=3)
    for spine in axes.spines.values():
        spine.set_visible(False)
    start = '' if block.start == 0 else ', start value %d' % block.start
    what = 'registers' if block.word == 'read' else 'frozen registers'
    heading(axes, '%s: its %s' % (block.task, what), 'after %s; %s of %s%s' % (
        counted(block.packets, 'packet'), counted(block.rows, 'row'), '{:,}'.format(block.size), start))
