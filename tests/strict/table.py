"""Prints the table, and ends with 1 where the library's slip is not the one that document 01 asks for.

    table.py ROWS SLIPS [NAME ANSWERS]...

ROWS is what rows.py writes, SLIPS the library's lines for its stream; then for each peer its name and
its lines. Rows of one group are put together; a number before an answer says for how many.
"""

import sys
from collections import Counter

COUNTED = ("Octets", "What the response says")
KINDS = {"01": "good", "02": "revoked", "03": "unknown"}


def lines(path):
    with open(path, encoding="ascii") as file:
        return file.read().splitlines()


def word(slip):
    """A slip in a word or two."""
    if slip[:2] != "04":
        return KINDS.get(slip[:2], "no slip")
    return f"refusal {int(slip[2:4], 16)}"


def cell(answers):
    """The answers of a group: one if they are all the same, else each with its number."""
    counts = Counter(answers)
    if len(counts) == 1:
        return answers[0]
    return ", ".join(f"{count} {answer}" for answer, count in counts.most_common())


def print_table(table):
    widths = [max(len(row[i]) for row in table) for i in range(len(table[0]))]
    for n, row in enumerate(table):
        print("| " + " | ".join(text.ljust(width) for text, width in zip(row, widths)) + " |")
        if n == 0:
            print("|" + "|".join("-" * (width + 2) for width in widths) + "|")


def main():
    asked = [line.split("\t") for line in lines(sys.argv[1])]
    slips = lines(sys.argv[2])
    columns = [("This library", [word(slip) for slip in slips])]
    columns += [(name, lines(path)) for name, path in zip(sys.argv[3::2], sys.argv[4::2])]
    for name, answers in columns:
        if len(answers) != len(asked):
            sys.exit(f"strict: {name} gave {len(answers)} answers to {len(asked)} rows")

    sections = {}
    for i, (section, group, _) in enumerate(asked):
        sections.setdefault(section, {}).setdefault(group, []).append(i)
    for section, groups in sections.items():
        print(f"{section}\n")
        table = [("What was changed", "Rows", *(name for name, _ in columns))]
        for group, members in groups.items():
            cells = [cell([answers[i] for i in members]) for _, answers in columns]
            table.append((group, str(len(members)), *cells))
        print_table(table)
        print()

    wrong = [i for i, (section, _, slip) in enumerate(asked) if section in COUNTED and slip[:2] == "04"]
    counts = [f"{name} {sum(answers[i] in KINDS.values() for i in wrong)}" for name, answers in columns]
    print(f"Of the {len(wrong)} above that document 01 refuses, cut-off ones and limits aside,")
    print("taken as good, revoked or unknown: " + ", ".join(counts) + ".")

    differ = [i for i, (_, _, slip) in enumerate(asked) if slip != slips[i]]
    for i in differ[:20]:
        _, group, slip = asked[i]
        print(f"strict: {group} (row {i}): the library gives {slips[i]}, document 01 asks for {slip}")
    if differ:
        sys.exit(f"strict: {len(differ)} of {len(asked)} rows are not as document 01 says")
    print(f"strict: {len(asked)} rows, each as document 01 says")


main()
