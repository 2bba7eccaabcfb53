"""Times, ratios and tables as they are printed."""
import math

UNITS = ((1e9, "s"), (1e6, "ms"), (1e3, "µs"), (1, "ns"))


def time(nanoseconds):
    """A time with three digits, in the unit that fits; - for none."""
    if nanoseconds is None:
        return "-"
    if nanoseconds < 1:
        return f"{nanoseconds:.2f} ns"
    size, unit = next((size, unit) for size, unit in UNITS if nanoseconds >= .9995 * size)
    number = nanoseconds / size
    return f"{number:.{max(0, 2 - int(math.log10(max(number, 1))))}f} {unit}"


def ratio(one, other):
    """How often the other time goes into one time, with two digits behind the point, or two digits where it is small; - for none."""
    if one is None or other is None or math.isinf(other):
        return "-"
    number = one / other
    if number >= 10:
        return f"{number:.0f}"
    return f"{number:.2f}" if number >= .1 else f"{number:.{1 - math.floor(math.log10(number))}f}"


def table(headings, lines, left=1):
    """A table in Markdown; all columns but the first ones stand at the right."""
    rule = ["---"] * left + ["---:"] * (len(headings) - left)
    return "\n".join("| " + " | ".join(cells) + " |" for cells in [headings, rule, *lines]) + "\n"
