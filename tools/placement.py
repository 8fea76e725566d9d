"""The maps of `show` and `stat`: groups, their arrays, and the partitions on these. Lengths are in inches."""
import sys
from typing import NamedTuple

from matplotlib.figure import Figure
from matplotlib.patches import Rectangle

import flymon_output as output
from drawing import GRID, INK, PALETTE, SOFT, counted, mix, text_width

Group = NamedTuple('Group', [('cmus', int), ('units', int), ('registers', int)])
Lane = NamedTuple('Lane', [('name', str), ('registers', int), ('pieces', list), ('tail', str)])
Piece = NamedTuple('Piece', [('base', int), ('size', int), ('task', str), ('head', str), ('note', str), ('is_frozen', bool)])

WIDTH, LEFT = 7.2, 0.75
BAR = 0.36
LEVEL = 0.15


def read_profile(name):
    """The groups of a profile; `-` is the default switch."""
    if name == '-':
        return [Group(3, 3, 1024)] * 3
    try:
        import tomllib
    except ImportError:
        sys.exit('draw: to read a profile takes Python 3.11 or later')
    try:
        with open(name, 'rb') as file:
            text = tomllib.load(file)
        tables = [text] * text['groups'] if text['version'] == 1 else text['group']
        groups = [Group(table['cmus'], table['units'], 1 << table['log_registers']) for table in tables]
        if not 1 <= len(groups) <= 12 or not all(1 <= group.cmus <= 4 and group.registers <= 1 << 20 for group in groups):
            raise ValueError
        return groups
    except OSError as fault:
        sys.exit('draw: %s: %s' % (name, fault.strerror))
    except (tomllib.TOMLDecodeError, UnicodeDecodeError, KeyError, TypeError, ValueError, OverflowError):
        sys.exit('draw: %s is no profile of flymon' % name)


def task_colours(blocks):
    """For each task a colour, and whether a task before it has it, so that it gets a tint: by the order in which the run names them first."""
    names = {}
    for block in blocks:
        for name in [task.name for task in block.tasks] if type(block) is output.Show else [getattr(block, 'task', None)]:
            if name is not None and not (type(block) is output.Refused and block.reason != 'exists'):
                names.setdefault(name, len(names))
    return {name: (PALETTE[number % len(PALETTE)], number >= len(PALETTE)) for name, number in names.items()}


def neighbour(blocks, block, kind):
    """The nearest block of a kind that tells of the same state of the switch: nothing was added, resized, removed or released
    between the two."""
    place = blocks.index(block)
    for way in (blocks[place + 1:], blocks[:place][::-1]):
        for other in way:
            if type(other) is kind:
                return other
            if type(other) is output.Done:
                break
    return None


def pieces_of(show):
    """The partitions of each array, by its group and its number in the group."""
    places = {}
    for task in show.tasks:
        for row, place in enumerate(task.places):
            head = task.name + (' row %d' % row if task.rows > 1 else '')
            pieces = places.setdefault((place.group, place.cmu), [])
            note = 'unit ' + '+'.join(map(str, place.units))
            pieces.append(Piece(place.live.base, place.live.size, task.name, head, note, False))
            if place.frozen:
                pieces.append(Piece(place.frozen.base, place.frozen.size, task.name, head, 'frozen', True))
    return {key: sorted(pieces) for key, pieces in places.items()}


def keys_of_units(show, stat):
    """For each group the keys of its units, as far as the run tells them; a unit that is free is `free`."""
    if stat:
        return {group: {unit: output.key_of_mask(mask) if mask else 'free' for unit, mask in enumerate(masks)}
                for group, masks in enumerate(stat.units)}
    keys = {}
    for task in show.tasks:
        for place in task.places:
            if len(place.units) == 1:
                keys.setdefault(place.group, {})[place.units[0]] = task.key
    return keys


def known_switch(places):
    """The arrays that a `show` names, each as long as is certain: up to the power of two that holds its group's partitions."""
    switch = {}
    for (group, cmu), pieces in places.items():
        end = max(piece.base + piece.size for piece in pieces)
        registers = 1 << (end - 1).bit_length()
        arrays = switch.setdefault(group, {})
        arrays[cmu] = registers
    return {group: {cmu: max(arrays.values()) for cmu in sorted(arrays)} for group, arrays in sorted(switch.items())}


def whole_switch(switch):
    """All arrays of a profile, as `known_switch` has them."""
    return {number: {cmu: group.registers for cmu in range(group.cmus)} for number, group in enumerate(switch)}


def draw_map(blocks, block, switch, colours):
    """The map of a `show`, or what a `stat` tells; each with what the other tells where it stands beside it."""
    show = block if type(block) is output.Show else neighbour(blocks, block, output.Show)
    stat = block if type(block) is output.Stat else neighbour(blocks, block, output.Stat)
    if show is None or (type(block) is output.Stat and switch is None):
        return draw_counts(block, switch)
    places = pieces_of(show)
    groups = whole_switch(switch) if switch else known_switch(places)
    if not groups:
        sys.exit('draw: no task is on the switch; --profile tells its arrays')
    for group, cmu in places:
        if cmu not in groups.get(group, {}) or max(p.base + p.size for p in places[group, cmu]) > groups[group][cmu]:
            sys.exit('draw: the profile is another than that of the run: group %d, cmu %d' % (group, cmu))
    check_profile(stat, switch)
    note = 'after ' + counted(block.packets, 'packet')
    note += '' if switch else '; only arrays with tasks, up to their last partition'
    lanes = {group: [Lane('cmu %d' % cmu, registers, places.get((group, cmu), []), '') for cmu, registers in arrays.items()]
             for group, arrays in groups.items()}
    keys = keys_of_units(show, stat)
    named = {'group %d' % group: (unit_lines(keys.get(group, {})), arrays) for group, arrays in lanes.items()}
    return draw_lanes('Tasks on the switch', note, named, colours)


def check_profile(stat, switch):
    """Ends the program where a `stat` is of another switch."""
    if stat and switch:
        numbers = [group.registers for group in switch for _ in range(group.cmus)]
        if len(switch) != len(stat.units) or len(numbers) != len(stat.arrays) or any(
                array.free > number for array, number in zip(stat.arrays, numbers)):
            sys.exit('draw: the profile is another than that of the run: its groups or arrays are not those of `stat`')


def levels_of(pieces, scale):
    """Where the label of each partition stands: None inside of it, else a level below the bar. Labels are set from right to
    left, so that no line to a label crosses another label."""
    levels = {}
    for piece in reversed(pieces):
        if text_width(piece.head + ' 0000', 8) < piece.size * scale:
            levels[piece] = None
            continue
        end = piece.base + text_width(outer_label(piece), 7.5) / scale + 0.06 / scale
        below = [level for other, level in levels.items() if level is not None and other.base <= end]
        levels[piece] = max(below, default=-1) + 1
    return levels


def outer_label(piece):
    """The label of a partition that is too small for one."""
    return '%s: %s%s' % (piece.head, '{:,}'.format(piece.size), ', ' + piece.note if piece.note else '')


def unit_lines(keys, head=''):
    """The keys of a group's units, in lines that are not too long."""
    lines = []
    for unit, key in sorted(keys.items()):
        text = '%sunit %d: %s' % ('' if lines else head, unit, key)
        if lines and text_width(lines[-1] + '    ' + text, 8) < WIDTH - LEFT - 0.2:
            lines[-1] += '    ' + text
        else:
            lines.append(text)
    return lines


def longest(lanes):
    """The registers of the longest array of a group; where `stat` tells of no free one, the axis has room for one."""
    return max(1, *(lane.registers for lane in lanes))


def right_margin(lanes):
    """Room for the labels that go past the end of an array, and for the tails behind it."""
    scale = (WIDTH - LEFT - 0.3) / longest(lanes)
    past = [0]
    for lane in lanes:
        past.append(text_width(lane.tail, 8) + 0.1 if lane.tail else 0)
        past += [text_width(outer_label(piece), 7.5) + 0.1 - (lane.registers - piece.base) * scale
                 for piece, level in levels_of(lane.pieces, scale).items() if level is not None]
    return 0.3 + min(max(past), 2.5)


def lane_height(lane, scale):
    """The bar of an array, and the levels of labels below it."""
    levels = [level + 1 for level in levels_of(lane.pieces, scale).values() if level is not None]
    return BAR + 0.12 + (LEVEL * max(levels) + 0.04 if levels else 0)


def draw_lanes(title, note, groups, colours, axis='register'):
    """A bar for each array, group under group; a group is its name, with the lines of its units and its lanes."""
    right = max(right_margin(lanes) for _, lanes in groups.values())
    width = WIDTH - LEFT - right
    lengths = {name: longest(lanes) for name, (_, lanes) in groups.items()}
    is_same = len(set(lengths.values())) == 1
    heights = {name: [lane_height(lane, width / lengths[name]) for lane in lanes] for name, (_, lanes) in groups.items()}
    head, between = 0.62, 0.12 if is_same else 0.34
    total = head + 0.5 + sum(sum(heights[name]) + LEVEL * max(len(units), 1) + 0.06 + between
                             for name, (units, _) in groups.items())
    figure = Figure(figsize=(WIDTH, total))
    figure.text(0.12 / WIDTH, 1 - 0.25 / total, title, fontsize=10.5, fontweight='bold')
    figure.text(0.12 / WIDTH, 1 - 0.43 / total, note, fontsize=9, color=SOFT)
    top = head
    for name, (units, lanes) in groups.items():
        figure.text(0.12 / WIDTH, 1 - (top + 0.1) / total, name, fontsize=9, fontweight='bold')
        for line, text in enumerate(units):
            figure.text(LEFT / WIDTH, 1 - (top + 0.1 + LEVEL * line) / total, text, fontsize=8, color=SOFT)
        top += LEVEL * max(len(units), 1) + 0.06
        height = sum(heights[name])
        axes = figure.add_axes([LEFT / WIDTH, 1 - (top + height) / total, width / WIDTH, height / total])
        draw_group(axes, lanes, heights[name], width / lengths[name], colours)
        is_last = name == list(groups)[-1]
        label_axis(axes, lengths[name], is_last or not is_same, axis if is_last else '')
        top += height + between
    return figure


def draw_group(axes, lanes, heights, scale, colours):
    """The arrays of one group."""
    axes.set_xlim(0, longest(lanes))
    axes.set_ylim(sum(heights), 0)
    top, ticks = 0, []
    for lane, height in zip(lanes, heights):
        draw_array(axes, top, lane, scale, colours)
        ticks.append(top + BAR / 2)
        top += height
    axes.set_yticks(ticks)
    axes.set_yticklabels([lane.name for lane in lanes])
    for spine in axes.spines.values():
        spine.set_visible(False)


def draw_array(axes, top, lane, scale, colours):
    """One array: its partitions, and what is free between them."""
    axes.add_patch(Rectangle((0, top), lane.registers, BAR, facecolor='white', edgecolor=SOFT, linewidth=0.7, clip_on=False))
    levels = levels_of(lane.pieces, scale)
    for piece in lane.pieces:
        colour, is_second = colours[piece.task]
        fill = mix(colour, 'white', 0.55) if piece.is_frozen or is_second else colour
        axes.add_patch(Rectangle((piece.base, top), piece.size, BAR, facecolor=fill, edgecolor='#555555', linewidth=0.7,
                                 hatch='////' if piece.is_frozen else None, clip_on=False))
        label_piece(axes, top, piece, levels[piece], scale)
    axes.text(lane.registers + 0.1 / scale, top + BAR / 2, lane.tail, va='center', fontsize=8, color=SOFT)
    ends = [0] + [piece.base + piece.size for piece in lane.pieces]
    for start, end in zip(ends, [piece.base for piece in lane.pieces] + [lane.registers]):
        label = 'free %s' % '{:,}'.format(end - start)
        if end > start and text_width(label, 7.5) + 0.1 < (end - start) * scale:
            axes.text((start + end) / 2, top + BAR / 2, label, ha='center', va='center', fontsize=7.5, color=SOFT)


def label_piece(axes, top, piece, level, scale):
    """The label of a partition: in it, or below it with a line to it."""
    if level is not None:
        bottom = top + BAR + LEVEL * (level + 0.55)
        axes.plot([piece.base + 0.02 / scale] * 2, [top + BAR, bottom], color='#555555', linewidth=0.7, clip_on=False)
        axes.text(piece.base + 0.05 / scale, bottom, outer_label(piece), va='center', fontsize=7.5)
        return
    middle = piece.base + piece.size / 2
    head = '%s  %s' % (piece.head, '{:,}'.format(piece.size))
    if piece.is_frozen:
        axes.text(middle, top + BAR / 2, head + '\n' + piece.note, ha='center', va='center', fontsize=7.5, linespacing=1.1,
                  bbox=dict(boxstyle='square,pad=0.2', facecolor='white', edgecolor='none', alpha=0.85))
        return
    axes.text(middle, top + BAR * (0.33 if piece.note else 0.5), head, ha='center', va='center', fontsize=8)
    axes.text(middle, top + BAR * 0.74, piece.note, ha='center', va='center', fontsize=7, color=INK)


def label_axis(axes, registers, has_numbers, label):
    """The numbers of the registers."""
    places = [registers * part // 8 for part in range(9)] if registers >= 8 else [0, registers]
    axes.set_xticks(places)
    axes.set_xticklabels(['{:,}'.format(place) for place in places] if has_numbers else [], fontsize=7.5)
    axes.tick_params(length=3 if has_numbers else 0, color=GRID, axis='x')
    axes.tick_params(length=0, axis='y')
    axes.set_xlabel(label)


def count_lane(number, array, registers):
    """The lane of an array of so many registers, of which `stat` tells how many are free."""
    parts = [('taken', registers - array.free), ('other free', array.free - array.largest), ('largest free', array.largest)]
    pieces, base = [], 0
    for name, size in parts:
        if size:
            pieces.append(Piece(base, size, name, name, '', False))
        base += size
    return Lane('array %d' % number, registers, pieces, counted(array.live, 'live row'))


def draw_counts(stat, switch):
    """What is free on each array: how much, but not where, which `stat` does not tell."""
    check_profile(stat, switch)
    lengths = [group.registers for group in switch for _ in range(group.cmus)] if switch else [array.free for array in stat.arrays]
    lanes = [count_lane(number, array, registers) for number, (array, registers) in enumerate(zip(stat.arrays, lengths))]
    colours = {'taken': ('#bbbbbb', False), 'other free': ('#e4eef8', False), 'largest free': ('#a9cbea', False)}
    keys = keys_of_units(None, stat)
    if switch:
        groups = {}
        for number, group in enumerate(switch):
            groups['group %d' % number] = (unit_lines(keys[number]), lanes[:group.cmus])
            lanes = lanes[group.cmus:]
    else:
        lines = [line for group in keys for line in unit_lines(keys[group], 'group %d   ' % group)]
        groups = {'units': (lines, lanes)}
    note = 'after %s; the bars tell how many, not where' % counted(stat.packets, 'packet')
    return draw_lanes('Registers of each array', note, groups, colours, 'registers')
