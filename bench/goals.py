"""Which lines fall short of the goals. The run prints them, and fails on none."""
import shown

MOST_TIMES_RUST = 1.2


def behind(call, lines, side, most=1.0):
    """The lines on which the library takes more than so many times of what a side takes."""
    for line in lines:
        if side in line.times and line.times["library"] > most * line.times[side]:
            yield f"{call}, {line.title}: {shown.ratio(line.times['library'], line.times[side])}"


def goal(wanted, count, short):
    """A goal with the lines that fall short of it."""
    if count == 0:
        return f"- {wanted}: not measured."
    if not short:
        return f"- {wanted}: holds on all {count} lines."
    return f"- {wanted}: falls short on {len(short)} of {count} lines.\n" + "\n".join(f"  - {line}" for line in short)


def measured(lines, side):
    return sum(side in line.times for line in lines)


def summary(sheet):
    """Each goal, and the lines that fall short of it with their ratio."""
    flat = [line for line, case in zip(sheet.list, sheet.cases) if case.is_flat()]
    everything = [(call, line) for call, lines in sheet.named().items() for line in lines]
    to_rust = [text for call, line in everything for text in behind(call, [line], "Rust", MOST_TIMES_RUST)]
    return "\n".join([
        goal(f"at most {MOST_TIMES_RUST} times the time of Rust", len(everything), to_rust),
        goal("RUN ahead of SQLite", measured(sheet.run, "SQLite"), list(behind("RUN", sheet.run, "SQLite"))),
        goal("RUN ahead of PostgreSQL", measured(sheet.run, "PostgreSQL"), list(behind("RUN", sheet.run, "PostgreSQL"))),
        goal("LIST ahead of SQLite", measured(sheet.list, "SQLite"), list(behind("LIST", sheet.list, "SQLite"))),
        goal("LIST of rules without FROM ahead of PostgreSQL", measured(flat, "PostgreSQL"), list(behind("LIST", flat, "PostgreSQL"))),
    ])
