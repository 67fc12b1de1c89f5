"""A run as a picture of matplotlib, for notebooks. `taprio.draw` draws without it, and shows the gates too."""

from __future__ import annotations

import importlib
from typing import Any

from .results import Run

__all__ = ["plot"]


def plot(run: Run, axes: Any = None) -> Any:
    """Draws when each frame of a run is on the wire, in the row of its class, and below it since when it waits, where that is known.

    Times are microseconds. It draws into `axes` of matplotlib, or into new ones, and gives them. Without matplotlib it raises ImportError.
    """
    if axes is None:
        try:
            pyplot = importlib.import_module("matplotlib.pyplot")
        except ImportError as fault:
            raise ImportError(
                "taprio.plot needs matplotlib: pip install matplotlib (taprio.draw draws an SVG without it)"
            ) from fault
        _, axes = pyplot.subplots()
    classes = sorted({it.traffic_class for it in run.frames if it.traffic_class is not None})
    for row, number in enumerate(classes):
        sent = [it for it in run.frames if it.traffic_class == number and it.start is not None and it.end is not None]
        since, starts, ends = ([(getattr(it, name) or 0) / 1e6 for it in sent] for name in ("arrived", "start", "end"))
        waits = [at for at, it in enumerate(sent) if it.wait]
        axes.hlines(
            [row - 0.4] * len(waits), [since[at] for at in waits], [starts[at] for at in waits], colors=f"C{row}", linewidth=1
        )
        # (with an edge, a frame that is shorter than a pixel is seen, and so is where one ends and the next begins)
        spans = [(start, end - start) for start, end in zip(starts, ends)]
        axes.broken_barh(spans, (row - 0.3, 0.6), color=f"C{row}", alpha=0.6, linewidth=0.8)
    axes.set_yticks(range(len(classes)), [f"class {number}" for number in classes])
    axes.set_xlabel("microseconds")
    return axes
