"""Error over memory, kinds side by side, by matplotlib."""
from __future__ import annotations

import itertools
import math
from typing import Any, Dict, List, Sequence, Tuple

from accuracy_measure import COUNTING, FLAGS, Measured

PANELS = ((COUNTING, "counts", "average relative error"), (("hll",), "number of flows", "relative error"),
          (("bloom",), "membership", "false positive rate"), (("mrac",), "flow sizes", "weighted mean relative error"),
          (FLAGS, "flags", "share of wrong answers"))
MARKS = "osD^vPX*"


def curves(rows: Sequence[Measured], kinds: Tuple[str, ...]) -> Dict[str, List[Tuple[int, float]]]:
    """By task its points, bytes of all rows and error."""
    found: Dict[str, List[Tuple[int, float]]] = {}
    for row in rows:
        if row.task.kind in kinds and row.error is not None:
            plural = "row" if row.task.rows == 1 else "rows"
            label = f"{row.task.name}: {row.task.kind}, {row.task.rows} {plural}"
            found.setdefault(label, []).append((row.task.rows * row.task.size * 4, row.error))
    return {label: sorted(points) for label, points in found.items()}


def corrected_curves(rows: Sequence[Measured]) -> Dict[str, List[Tuple[int, float]]]:
    """Of HyperLogLog also the error behind the usual correction for few flows."""
    found: Dict[str, List[Tuple[int, float]]] = {}
    for row in rows:
        if row.corrected is not None and row.flows:
            error = abs(row.corrected - row.flows) / row.flows
            found.setdefault(f"{row.task.name}, corrected for few", []).append((row.task.size * 4, error))
    return {label: sorted(points) for label, points in found.items()}


def size_text(octets: int) -> str:
    for unit, name in ((1 << 20, "MiB"), (1 << 10, "KiB")):
        if octets >= unit:
            return f"{octets / unit:g} {name}"
    return f"{octets} B"


def ticks_of(sizes: Sequence[int]) -> List[int]:
    """At most seven powers of two over the sizes."""
    low, high = min(sizes).bit_length() - 1, max(sizes).bit_length() - 1
    step = max(1, -(-(high - low) // 5))
    return [1 << power for power in range(low, high + 1, step)]


def set_error_axis(axes: Any, errors: Sequence[float]) -> None:
    """Logarithmic; where some error is 0, down to the decade of the least other one, with 0 below it."""
    above = [error for error in errors if error > 0]
    if not above:
        return
    if len(above) == len(errors):
        axes.set_yscale("log")
        return
    least = 10.0 ** math.floor(math.log10(min(above)))
    decades = math.log10(max(above) / least)
    axes.set_yscale("symlog", linthresh=least, linscale=max(0.5, decades / 9))
    axes.set_ylim(bottom=-least / 4, top=max(above) * 2)


def draw_panel(axes: Any, found: Dict[str, List[Tuple[int, float]]], title: str, measure: str) -> None:
    sizes = [size for points in found.values() for size, _ in points]
    for mark, (label, points) in zip(MARKS * (1 + len(found) // len(MARKS)), found.items()):
        axes.plot([size for size, _ in points], [error for _, error in points], marker=mark, label=label)
    axes.set_xscale("log", base=2)
    ticks = ticks_of(sizes)
    axes.set_xticks(ticks, [size_text(tick) for tick in ticks], rotation=30, ha="right")
    axes.minorticks_off()
    set_error_axis(axes, [error for points in found.values() for _, error in points])
    axes.set_title(title)
    axes.set_xlabel("memory of all rows")
    axes.set_ylabel(measure)
    axes.grid(True, alpha=0.3)
    axes.legend(fontsize="small")


def draw(name: str, rows: Sequence[Measured], title: str) -> None:
    """Writes the picture."""
    import matplotlib
    matplotlib.use("Agg")
    matplotlib.rcParams["svg.hashsalt"] = "flymon"  # the same picture has the same bytes
    from matplotlib import pyplot

    panels = []
    for kinds, heading, measure in PANELS:
        found = {**curves(rows, kinds), **(corrected_curves(rows) if "hll" in kinds else {})}
        panels += [(found, heading, measure)] if found else []
    columns = 2 if len(panels) == 4 else max(1, min(3, len(panels)))
    lines = max(1, -(-len(panels) // columns))
    figure, axes = pyplot.subplots(lines, columns, figsize=(4.6 * columns, 3.8 * lines), squeeze=False)
    for place, panel in itertools.zip_longest(axes.flat, panels):
        if panel:
            draw_panel(place, *panel)
        else:
            place.remove()
    figure.suptitle(title, fontsize="medium")
    figure.tight_layout()
    figure.savefig(name, metadata={"Date": None} if name.endswith(".svg") else None, dpi=120)
