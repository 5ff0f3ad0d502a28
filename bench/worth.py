"""What bench/plot draws of bench/workers: the time of a request, by its places and its workers."""

import textwrap

import drawing

COLUMNS = 5
LINES = (("#a6d5f0", "o"), ("#56b4e9", "s"), ("#0072b2", "^"))


def is_worth(times):
    """Whether several workers are sooner than one by a tenth at least."""
    one, *others = times.values()
    return min(others) <= 0.9 * one


def panel(axes, form, requests):
    """Draws the requests of one form: a line for each number of workers, and from where several are
    worth it."""
    sizes, times = zip(*((it["size"], it["microseconds"]["here"]) for it in requests))
    for workers, (colour, marker) in zip(times[0], LINES):
        how = {"marker": marker, "markersize": 4, "linewidth": 1, "color": colour}
        axes.plot(sizes, [it[workers] for it in times], label=drawing.worded(int(workers)), **how)
    for at, size in enumerate(sizes):
        if all(map(is_worth, times[at:])):
            axes.axvline(size, color=drawing.DARK, linewidth=1, linestyle=":")
            break
    axes.set_xscale("log", base=4)
    axes.set_yscale("log")
    axes.set_title(textwrap.fill(form, 24), fontsize=drawing.SMALL)
    for axis in (axes.xaxis, axes.yaxis):
        drawing.plain_numbers(axis)
    axes.tick_params(axis="x", rotation=45)
    axes.grid(axis="y", linewidth=0.3)


def draw(figures, path):
    """Draws a panel for each form of request."""
    forms = {}
    for it in figures["requests"]:
        forms.setdefault(it["form"], []).append(it)
    rows = -(-len(forms) // COLUMNS)
    picture, places = drawing.panels(rows, COLUMNS, 1.2 + 2.2 * rows)
    for axes, (form, requests) in zip(places.flat, forms.items()):
        panel(axes, form, requests)
    drawing.leave_out(places, len(forms))
    for row in places:
        row[0].set_ylabel("microseconds")
    handles = places[0][0].get_legend_handles_labels()
    picture.legend(*handles, loc="upper center", ncol=len(LINES), frameon=False)
    said = (
        f"The shortest of {figures['rounds']} rounds of a request of tensor_lines, by its places or "
        "the side of its matrices, each asked once the last is answered. From a dotted line on "
        "several workers have each answer sooner by a tenth at least."
    )
    drawing.save(picture, path, said, drawing.machine_of(figures), above=0.3)
