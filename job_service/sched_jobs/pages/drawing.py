"""What a person looks at: a picture in SVG of the last hour, and a page with all runs that are kept."""

import json
import time
from collections.abc import Callable
from html import escape
from pathlib import Path

from sched_jobs.basics import SECOND, Json
from sched_jobs.pages.history import Bar, History, history_of

HOUR = 3_600 * SECOND
MILLISECOND = 1_000_000
TEMPLATE = Path(__file__).resolve().parent / "page.html"
PLACE = "/*RUNS*/null"
# Of the picture, in pixels.
WIDTH, NAMES, ROW, TOP = 1_000, 180, 22, 30
COLOURS = {"ok": "#3a7d44", "failed": "#c0392b", "runs": "#2a6fb0"}
TICKS = (1, 5, 15, 60, 300, 900, 3_600, 10_800, 43_200, 86_400, 604_800, 2_592_000, 31_536_000)
MOST_TICKS = 8


def kind_of(bar: Bar) -> str:
    return "runs" if bar.end is None else "failed" if bar.is_failed else "ok"


# ---- the page


def data_of(history: History) -> Json:
    """What the page is told: names, and the runs of each as numbers, moments in milliseconds."""
    names = sorted({bar.name for bar in history.bars})
    places = {name: place for place, name in enumerate(names)}
    runs = [[places[bar.name], bar.start / MILLISECOND, None if bar.end is None else bar.end / MILLISECOND, bar.due / MILLISECOND,
             int(bar.is_failed), bar.outcome, bar.task, bar.run, bar.worker, bar.attempts] for bar in history.bars]
    return {"names": names, "runs": runs, "begin": history.begin / MILLISECOND, "end": history.end / MILLISECOND}


def page(state: Path, span: int | None) -> str:
    """One page that needs nothing beside it."""
    data = json.dumps(data_of(history_of(state, span)), separators=(",", ":")).replace("<", "\\u003c")
    return TEMPLATE.read_text().replace(PLACE, data, 1)


# ---- the picture


def step_of(span: int) -> int:
    """The seconds from one tick to the next."""
    return next((step for step in TICKS if span / SECOND / step <= MOST_TICKS), TICKS[-1])


def picture(state: Path, span: int | None) -> str:
    """A row for each job, and a bar for each run: of those that lie over one another a failure is on top."""
    span = HOUR if span is None else max(span, SECOND)
    history = history_of(state, span)
    names = sorted({bar.name for bar in history.bars})
    height = TOP + ROW * max(1, len(names)) + 10
    scale = (WIDTH - NAMES - 10) / span

    def place(moment: int) -> float:
        return round(NAMES + (moment - history.begin) * scale, 1)

    parts = [f'<svg xmlns="http://www.w3.org/2000/svg" width="{WIDTH}" height="{height}" font-family="sans-serif" font-size="12">',
             f'<rect width="{WIDTH}" height="{height}" fill="white"/>']
    parts += ticks(history, span, place, height)
    parts += [f'<text x="5" y="{TOP + ROW * row + 15}">{escape(name[:26])}</text>' for row, name in enumerate(names)]
    for bar in sorted(history.bars, key=lambda bar: bar.is_failed):
        left = max(place(bar.start), NAMES)
        width = max(2.0, round(place(history.end if bar.end is None else bar.end) - left, 1))
        parts.append(f'<rect x="{left}" y="{TOP + ROW * names.index(bar.name) + 3}" width="{width}" height="{ROW - 6}" '
                     f'fill="{COLOURS[kind_of(bar)]}"><title>{escape(title_of(bar))}</title></rect>')
    return "\n".join([*parts, "</svg>\n"])


def ticks(history: History, span: int, place: Callable[[int], float], height: int) -> list[str]:
    step, parts = step_of(span) * SECOND, []
    moment = -(-history.begin // step) * step
    while moment <= history.end:
        text = time.strftime("%H:%M:%S" if step < 86_400 * SECOND else "%Y-%m-%d", time.localtime(moment // SECOND))
        parts.append(f'<line x1="{place(moment)}" y1="{TOP - 5}" x2="{place(moment)}" y2="{height - 5}" stroke="#ddd"/>'
                     f'<text x="{place(moment)}" y="{TOP - 10}" text-anchor="middle">{text}</text>')
        moment += step
    return parts


def title_of(bar: Bar) -> str:
    began = time.strftime("%Y-%m-%d %H:%M:%S", time.localtime(bar.start // SECOND))
    took = "" if bar.end is None else f" in {(bar.end - bar.start) / SECOND:.3f} s"
    return f"{bar.name} task {bar.task} run {bar.run}: {bar.outcome}{took}, from {began}"
