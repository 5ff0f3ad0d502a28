"""What bench/plot draws of bench/sizes/run: the time for a value, by the number of values."""

import drawing

# What is drawn, with its colour and its marker.
LINES = {
    "library, 1": ("#a6d5f0", "o"),
    "library, 2": ("#56b4e9", "s"),
    "library, 4": ("#0072b2", "^"),
    "frames, 4": ("#b3b3b3", "D"),
    "Eigen, 1": ("#f3cf80", "o"),
    "Eigen, 4": ("#e69f00", "^"),
    "numpy": ("#009e73", "o"),
}
TITLES = {
    "chain": "eight operations",
    "sum": "a sum",
    "axis": "a sum along an axis",
    "shuffle": "a shuffle of three axes",
    "convolution": "under a kernel of three",
    "cumsum": "cumsum of one line",
    "cumsum-rows": "cumsum of rows",
    "argmax-rows": "argmax of rows",
    "cumsum-columns": "cumsum of columns",
    "argmax-columns": "argmax of columns",
    "take-rows": "rows taken",
    "take-values": "values taken",
}
# The most panels side by side.
COLUMNS = 6


def panel(axes, name, cases):
    """Draws the sizes of one case, with a line for each program or library."""
    sizes = [2 ** it["power"] for it in cases]
    for who, (colour, marker) in LINES.items():
        times = [it["nanoseconds a value"].get(who) for it in cases]
        if all(times):
            how = {"marker": marker, "markersize": 4, "linewidth": 1, "color": colour}
            axes.plot(sizes, times, label=who, **how)
    axes.set_xscale("log", base=2)
    axes.set_xticks(sizes, [f"$2^{{{it['power']}}}$" for it in cases])
    axes.set_ylim(bottom=0)
    axes.set_title(TITLES.get(name, name), fontsize=drawing.SMALL)
    axes.grid(axis="y", linewidth=0.3)


def draw(figures, path):
    """Draws a panel for each case."""
    found = {}
    for it in figures["cases"]:
        found.setdefault(it["what"], []).append(it)
    rows = -(-len(found) // COLUMNS)
    picture, places = drawing.panels(rows, -(-len(found) // rows), 3.4 + 2.6 * (rows - 1))
    for axes, (name, cases) in zip(places.flat, found.items()):
        panel(axes, name, cases)
    for axes in places[:, 0]:
        axes.set_ylabel("nanoseconds a value")
    drawing.leave_out(places, len(found))
    handles = places[0][0].get_legend_handles_labels()
    picture.legend(*handles, loc="upper center", ncol=len(LINES), frameon=False)
    said = (
        f"The shortest of {figures['rounds']} rounds, by how many values the array has, on as many "
        "threads or workers as is said; numpy has one. Frames go through two pipes to another "
        "process and back. Each answer is a new array, but Eigen's, which is kept."
    )
    drawing.save(picture, path, said, drawing.machine_of(figures), above=0.3)
