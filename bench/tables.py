"""What bench/panel and board/check have in common: the calls of bench/calls.c by name, tables of what they take, and limits."""

import pathlib
import re
import sys

ROOT = pathlib.Path(__file__).resolve().parent.parent
HEADER = ROOT / "include" / "cloverdrum.h"

SMALL, MIDDLE, LARGE = 16, 64, 512
DAYS = [SMALL, MIDDLE, 256, LARGE]
SIDES = ["library", "plain", "tuned"]
CUTS = {"day_floor": "day's floor", "day_ceiling": "day's ceiling", "total_floor": "total's floor", "total_ceiling": "total's ceiling"}
LOADS = {"open": "opening"} | {call: f"cut of a {name}" if call.startswith("day") else f"cut of the {name}" for call, name in CUTS.items()}
# A cut that changes every day, on profiles of its own, each with the losses in another order.
EVERY_DAY = "every_day"
CUT_REFUSALS = [12, 7, 3, 5, 2, 9]
REFUSED_CUTS = [f"cut_{number}" for number in CUT_REFUSALS]
REFUSED_CUT = "a cut refused with 2, 3, 5, 7, 9 or 12"
# A sheet of no cut, of one, and with a cut for each day; beside it the single calls for the same cuts.
SHEETS = {"sheet_of_none": None, "sheet_of_one": "single", "sheet": "singles"}
SHEET_REFUSALS = [1, 14, 2]
REFUSED_SHEETS = [f"sheet_{number}" for number in SHEET_REFUSALS]
# The rows of the tables that go by entry, and the calls of each.
ENTRIES = {
    "`cloverdrum_open`": ["open"],
    "`cloverdrum_cut`": [*CUTS, EVERY_DAY],
    REFUSED_CUT: REFUSED_CUTS,
    "a cut answered 8": ["cut_8"],
    "`cloverdrum_cut_sheet`": ["sheet_of_one"],
    "a sheet refused with 1, 2 or 14": REFUSED_SHEETS,
} | {f"`cloverdrum_{name}`": [name] for name in ["read", "write_day", "write_total", "inspect", "write_file", "read_file", "session_bytes"]}

# Calls that a row takes in where no instructions are counted: the cuts of this one grow in number.
LONGER = {"`cloverdrum_cut_sheet`": ["sheet"]}

# The header's bytes of stack for an entry: on x86-64, on Cortex-M.
STACK = re.compile(r"^ \* {5}(cloverdrum_\w+) +([\d,]+) +([\d,]+)$", re.M)
X86_64, CORTEX_M = 0, 1

over = []


def limit(what, figure, most):
    if figure > most:
        over.append(f"over its limit: {what}, {figure if isinstance(figure, int) else f'{figure:.3f}'}, at most {most}")


def end():
    """Ends with 1 and a line for each figure over its limit, if there is one."""
    if over:
        sys.exit("\n".join(over))


def limit_stacks(machine, column, stacks):
    """No entry, by name, takes more stack on the machine than the header says in the column."""
    said = {name: [int(figure.replace(",", "")) for figure in figures] for name, *figures in STACK.findall(HEADER.read_text())}
    for entry, stack in stacks.items():
        limit(f"{machine}, {entry}, bytes of stack, by the header", stack, said[entry][column])


def entry_of(row):
    """The entry's name in a row of ENTRIES; for refusals that of the entry which refuses."""
    refuses = "cloverdrum_cut_sheet" if "sheet" in row else "cloverdrum_cut"
    return row.strip("`") if row.startswith("`") else refuses


def calls_of(row):
    return ENTRIES[row] + LONGER.get(row, [])


def worst_by_row(figures):
    """Of figures by call, the largest in each row of ENTRIES."""
    return {row: max(figures[call] for call in calls_of(row)) for row in ENTRIES}


def table(heads, rows, texts=1):
    """Prints a table whose first columns are texts, the others numbers."""
    print("|" + "|".join(f" {head} " if head else " " for head in heads) + "|")
    print("|" + "|".join("---" if place < texts else "---:" for place in range(len(heads))) + "|")
    for row in rows:
        print("| " + " | ".join(f"{cell:.2f}" if isinstance(cell, float) else str(cell) for cell in row) + " |")
    print()


def profiles_of(counts, made="open"):
    """The profiles on which a call is made; those of the loads, where none is named."""
    return list(dict.fromkeys(profile for profile, _, call, _ in counts if call == made))


def loads_table(counts, opening_ratio, cut_ratio):
    """Counts are instructions by profile, days, call and side; ratios are limits by days."""
    rows = []
    profiles = profiles_of(counts)
    for call, name in LOADS.items():
        for days in DAYS:
            sides = {profile: [counts[profile, days, call, side] for side in SIDES] for profile in profiles}
            worst = max(profiles, key=lambda profile: sides[profile][0] / sides[profile][1])
            library, plain, tuned = sides[worst]
            rows.append([name, worst, days, library, plain, tuned, library / plain, library / tuned])
            ratios = opening_ratio if call == "open" else cut_ratio
            limit(f"{name}, {days} days, {worst}, ratio to plain C", library / plain, ratios[days])
    table(["", "worst on", "days", "instructions", "plain C", "tuned C", "ratio to plain", "to tuned"], rows, texts=2)


def profiles_table(counts):
    def cell(profile, call):
        library, plain = (counts[profile, LARGE, call, side] for side in ("library", "plain"))
        return f"{library} ({library / plain:.2f})"

    rows = [[profile, *(cell(profile, call) for call in LOADS)] for profile in profiles_of(counts)]
    table([f"{LARGE} days", "opening", *CUTS.values()], rows)


def orders_table(counts, cut_ratio):
    """Of a cut that changes every day, by the order of the losses; ratios are limits by days."""
    rows = []
    for profile in profiles_of(counts, EVERY_DAY):
        for days in DAYS:
            library, plain, tuned = (counts[profile, days, EVERY_DAY, side] for side in SIDES)
            rows.append([profile, days, library, plain, tuned, library / plain, library / tuned])
            limit(f"a cut that changes every day, {days} days, {profile}, ratio to plain C", library / plain, cut_ratio[days])
    table(["losses", "days", "instructions", "plain C", "tuned C", "ratio to plain", "to tuned"], rows)


def sheets_table(counts, ratios):
    """A sheet beside single calls, on the profile with the highest ratio; ratios are limits by the sheet's name."""
    rows = []
    for sheet, singles in SHEETS.items():
        for days in DAYS:
            made = {profile: counts[profile, days, sheet, "library"] for profile in profiles_of(counts, sheet)}
            if singles is None:
                rows.append(["any", days, 0, max(made.values()), "-", "-"])
                continue
            beside = {profile: counts[profile, days, singles, "library"] for profile in made}
            worst = max(made, key=lambda profile: made[profile] / beside[profile])
            ratio = made[worst] / beside[worst]
            rows.append([worst, days, days if sheet == "sheet" else 1, made[worst], beside[worst], ratio])
            limit(f"{sheet}, {days} days, {worst}, ratio to single calls", ratio, ratios[sheet])
    table(["worst on", "days", "cuts", "a sheet", "single calls", "ratio"], rows)


def entries_table(counts, most_growth, columns):
    """Instructions of each row of ENTRIES and their growth; then columns, each a head with figures by row."""
    rows = []
    for name, calls in ENTRIES.items():
        made = [(profile, call) for call in calls for profile in profiles_of(counts, call)]
        at = {days: {(profile, call): counts[profile, days, call, "library"] for profile, call in made} for days in (MIDDLE, LARGE)}
        growth = max(at[LARGE][key] / max(1, at[MIDDLE][key]) for key in at[LARGE])
        limit(f"{name}, growth from {MIDDLE} to {LARGE} days", growth, most_growth)
        rows.append([name, max(at[MIDDLE].values()), max(at[LARGE].values()), growth, *(figures[name] for figures in columns.values())])
    table(["", f"instructions, {MIDDLE} days", f"{LARGE} days", "growth", *columns], rows)
