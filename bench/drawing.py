"""What the pictures of bench/plot share: bars, whiskers, figures and captions."""

import math
import textwrap

import matplotlib

matplotlib.use("svg")
from matplotlib import pyplot  # noqa: E402
from matplotlib.ticker import FuncFormatter  # noqa: E402

# In inches. A page shows a picture some 900 pixels wide, so a text of size 8 is 10 pixels high.
WIDTH, LINE, CAPTION_WIDTH = 10, 0.15, 160
SMALL, MIDDLE = 8, 9
DARK, PALE = "#222222", "#555555"
# Text stays text, and equal figures give equal files.
matplotlib.rcParams.update({"svg.fonttype": "none", "svg.hashsalt": "figures"})
matplotlib.rcParams.update({"font.size": SMALL, "axes.titlesize": MIDDLE, "axes.labelsize": MIDDLE})


def pair(it, who):
    """Returns the shortest and the median time of a program, in milliseconds."""
    of = it["milliseconds"][who]
    return of["shortest"], of["median"]


def three_digits(number):
    """Returns a number rounded to three significant digits."""
    digits = 2 - math.floor(math.log10(number)) if number > 0 else 0
    return f"{round(number, digits):,.{max(0, digits)}f}"


def plain(number, _=None):
    return f"{number:,.10g}"


def worded(count):
    return f"{count} worker" + "s" * (count != 1)


def panels(rows, columns, height, **how):
    return pyplot.subplots(rows, columns, figsize=(WIDTH, height), squeeze=False, **how)


def whisker(axes, ends, row):
    """Draws a line from a bar's end to the end that the median would give."""
    axes.plot(ends, (row, row), color=DARK, linewidth=1)
    axes.plot(ends[1:], [row], "|", color=DARK, markersize=5)


def figure(axes, text, end, row, side=1):
    """Writes the figure of a bar, right of its end, or left of it if `side` is -1."""
    where = "left" if side > 0 else "right"
    how = {"textcoords": "offset points", "va": "center", "ha": where}
    axes.annotate(text, (end, row), (4 * side, 0), **how)


def bar(axes, row, height, ends, text, **how):
    """Draws a bar from 0 with its whisker, and the figure after both."""
    axes.barh(row, ends[0], height, **how)
    whisker(axes, ends, row)
    figure(axes, text, max(ends), row)


def line(axes, points, marker, **how):
    """Draws a line through the shortest times, or their ratios, with whiskers to the medians."""
    at, pairs = zip(*points)
    beyond = [later - first for first, later in pairs]
    whiskers = [[max(0, -it) for it in beyond], [max(0, it) for it in beyond]]
    how = {"markersize": 4, "linewidth": 1, "elinewidth": 1, "capsize": 2, **how}
    axes.errorbar(at, [first for first, _ in pairs], whiskers, marker=marker, **how)


def leave_out(places, count):
    """Hides the places after the last picture."""
    for axes in list(places.flat)[count:]:
        axes.set_axis_off()


def plain_numbers(axis):
    axis.set_major_formatter(FuncFormatter(plain))
    axis.set_minor_formatter(FuncFormatter(lambda *_: ""))


def when(figures):
    """Returns what figures are of, when they were measured, and the load before."""
    machine = figures["machine"]
    return (
        f"{figures['command']}, {figures['date']}, revision {machine['revision']}; load of the "
        f"minute before: {machine['load before']:.1f} (0 is an idle machine)"
    )


def machine_of(figures):
    """Returns when figures were measured, on what machine, and with what programs."""
    machine = figures["machine"]
    programs = [
        f"our programs built for {machine['built for']}" if machine["built for"] else "",
        f"numpy {machine['numpy']}" if machine.get("numpy") else "",
        f"Eigen {machine['eigen']}" if machine["eigen"] else "",
        machine["compiler"],
    ]
    return (
        f"{when(figures)}. {machine['processor']}, {machine['processors']} processors, Linux "
        f"{machine['kernel']}, huge pages {machine['huge pages']}; "
        f"{', '.join(filter(None, programs))}."
    )


def save(picture, path, *caption, above=0):
    """Writes a picture, with `above` inches free at the top and the paragraphs of its caption at the
    bottom."""
    lines = [line for it in caption for line in textwrap.wrap(it, CAPTION_WIDTH)]
    height = picture.get_figheight()
    picture.tight_layout(rect=(0, (len(lines) + 1) * LINE / height, 1, 1 - above / height))
    picture.text(0.01, LINE / 2 / height, "\n".join(lines), color=PALE, va="bottom")
    picture.savefig(path, metadata={"Date": None})
    pyplot.close(picture)
    print(path)
