"""Writes the worst inputs within the limits that each reader is known to have, into the folder in which it runs, and a line for each
of how it is run.

    python3 docs/worst_inputs.py && sh worst_runs.sh OPA DESK RULES

docs/PERFORMANCE.md has what each took. What `opa check` reads `rules faults` reads, too.
"""

import json

from worst_windows import all_written

FILE, INPUT, LINE = 8_388_608, 67_108_864, 65_536
HEAD = "global\n  number x\n"
runs = []


def write(name, text, most):
    data = text.encode() if isinstance(text, str) else text
    assert len(data) <= most, (name, len(data))
    with open(name, "wb") as file:
        file.write(data)


def filled(front, line, most):
    """A text with a line as often as it fits."""
    return front + line * ((most - len(front)) // len(line))


def timed(name, command):
    runs.append(f"echo {name}; /usr/bin/time -f '%e s, %M KB, status %x' {command} > /dev/null")


def run(name, words, given="/dev/null"):
    program, words = ("$2", words[5:]) if words.startswith("desk ") else ("$1", words)
    timed(name, f'"{program}" {words} < {given}')
    if words.startswith("check "):
        timed(f"errors_of_{name}", f'"$3" faults {words[6:]}')


# Rule files: tokens, blocks, phrases, brackets, groups
write("words.txt", filled(HEAD, "x = " + "a " * ((LINE - 6) // 2) + "\n", FILE), FILE)
run("rules_of_short_words", "check words.txt")
phrase = " ".join("a" * 500)
write("phrases.txt", filled(f"global\n  number {phrase}\n  number x\n", "x = " + "a " * ((LINE - 6) // 2) + "\n", FILE), FILE)
run("rules_of_words_under_a_long_phrase", "check phrases.txt")
write("comparisons.txt", filled(f"global\n  number {phrase}\n  bool y\n", "y if\n  " + " + ".join(["a a a"] * 8000) + " > 1\n", FILE), FILE)
run("operands_that_begin_a_long_phrase", "check comparisons.txt")
write("feeds.txt", "\n" * FILE, FILE)
run("rules_of_line_feeds", "check feeds.txt")
write("levels.txt", filled("", "a\n  b\n    c\n", FILE), FILE)
run("rules_of_levels", "check levels.txt")
write("brackets.txt", filled(HEAD, "x = " + "(" * 64 + "1" + ")" * 64 + "\n", FILE), FILE)
run("rules_of_brackets", "check brackets.txt")
write("quotes.txt", HEAD + 'x = "' + "a" * 60000 + "\n", FILE)
run("a_text_that_never_closes", "check quotes.txt")
write("attributes.txt", "global\n" + "".join(f"  number {'b ' * 480}{n}\n" for n in range(4000)), FILE)
run("long_phrases_that_differ_at_their_ends", "check attributes.txt")

# Errors, each with a phrase that nothing declares, near to all that are declared
def misspelled(length, count):
    words = " ".join("word" + 3 * chr(97 + n % 26) for n in range(length))
    declared = "".join(f"  number the {words} number {n}\n" for n in range(3_900))
    return filled("global\n" + declared, f"the {words} number 1 = the {words} lumber 1\n", count)


write("misspelled.txt", misspelled(10, 1_048_576), FILE)
run("errors_near_to_all_phrases", "check misspelled.txt")
write("long_misspelled.txt", misspelled(100, FILE), FILE)
run("errors_near_to_long_phrases", "check long_misspelled.txt")

# Tables
table = 'global\n  number x\n  number y\ntable "t.csv"\n'
write("table.txt", table, FILE)
write("t.csv", filled("conclusion x,y\n", "1,1\n", FILE), FILE)
run("a_table_of_short_records", "check table.txt")
write("quoted.txt", table.replace("t.csv", "q.csv"), FILE)
write("q.csv", filled('conclusion x,y\n"', '""', FILE), FILE)
run("a_table_of_quotes_that_never_close", "check quoted.txt")

# Rows of tables that `rules review` compares: as many as 200,000 nodes let, which differ in all, or in the last part
def review(name, parts, rows):
    heads = [f"x{n}" for n in range(parts)]
    write(f"{name}.txt", "global\n" + "".join(f"  number {head}\n" for head in heads) + f'  number y\ntable "{name}.csv"\n', FILE)
    cells = "1," * (parts - 1)
    write(f"{name}.csv", ",".join(heads) + ",= y\n" + "".join(f"{cells}{n},1\n" for n in range(rows)) + "otherwise" + "," * parts + "0\n", FILE)
    timed(f"a_review_of_{name}", f'"$3" review {name}.txt')


review("rows_that_differ", 1, 39_999)
review("rows_that_differ_at_their_ends", 10, 6_060)

# As many phrases as are compared with one another, which differ at their ends; ones with a digit aren't compared.
endings = ["".join(chr(ord("a") + int(digit)) for digit in f"{n:03}") for n in range(1_000)]
write("near_phrases.txt", "global\n" + "".join(f"  number {'a ' * 470}{ending}\n" for ending in endings) + f"goal {'a ' * 470}aaa\n", FILE)
timed("a_review_of_phrases_that_differ_at_their_ends", '"$3" review near_phrases.txt')

# Saved cases
write("case.txt", HEAD, FILE)
write("load_input.txt", 'load "s.json"\n' * 10, FILE)
for name, text in {
    "nested": "[" * FILE,
    "objects": '{"a":' * (FILE // 5),
    "escapes": '{"a":"' + "\\u0041" * ((FILE - 10) // 6) + '"}',
    "digits": '{"a":' + "1" * (FILE - 10) + "}",
    "keys": "{" + ",".join(f'"{n}":0' for n in range(700_000)) + "}",
}.items():
    write(f"{name}.json", text, FILE)
    write(f"{name}_input.txt", f'load "{name}.json"\n', FILE)
    run(f"a_saved_case_of_{name}", "run case.txt", f"{name}_input.txt")

# Inputs
write("shows.txt", filled("", "show x\n", INPUT), INPUT)
run("lines_that_show", "run case.txt", "shows.txt")
write("short.txt", filled("", "a\n", INPUT), INPUT)
run("lines_of_one_letter", "run case.txt", "short.txt")
write("long.txt", filled("", "a " * 32767 + "\n", INPUT), INPUT)
run("long_lines", "run case.txt", "long.txt")
write("points.txt", filled("", "answer x = 1" + "".join(f"; from {1600 + n % 800}-01-01 {n % 7}" for n in range(800)) + "\n", INPUT), INPUT)
run("answers_of_many_change_points", "run case.txt", "points.txt")

# Reports
front = "report x at 2024-01-01\n"
write("members.txt", filled(front, '1 member the people: "a"\n', INPUT), INPUT)
run("a_report_of_members", "verify case.txt members.txt")
write("runs.txt", filled(front, "1 x, 1600-01-01 to 2399-12-31: 1, answer\n", INPUT), INPUT)
run("a_report_of_runs", "verify case.txt runs.txt")
write("words_report.txt", filled(front, "a " * 32767 + "\n", INPUT), INPUT)
run("a_report_of_words", "verify case.txt words_report.txt")

# Quantifiers in one another over one list, as deep as they may stand and over as many members as a case may have
NESTED = {
    "greatest": "InstanceMaximum(the persons, number a + {})",
    "counted": "InstanceCountIf(the persons, (number a > 0 and {} > 0))",
    "mixed": "InstanceMinimum(the persons, InstanceCountIf(the persons, (number a > 0 and {} > 0)) + number a)",
}
DEEPEST = {"greatest": 31, "counted": 21, "mixed": 12}
members = [f"p{n}" for n in range(20_000)]
for name, answers in {"no_answers": [], "answers": [{"attribute": "number a", "line": [[0, "n:1"], [200_000, f"n:{n % 7 + 1}"]], "of": member} for n, member in enumerate(members)]}.items():
    case = {"answers": answers, "format": "policy-case", "lists": [{"list": "the persons", "names": members, "of": ""}], "model": 0, "version": 2}
    write(f"persons_{name}.json", json.dumps(case, separators=(",", ":"), sort_keys=True), FILE)
for kind, shape in NESTED.items():
    text = "number a"
    for _ in range(DEEPEST[kind]):
        text = shape.format(text)
    write(f"quantifiers_{kind}.txt", f"global\n  number the total\nentity the person\n  in global: the persons\n  number number a\ngoal the total\nthe total = {text}\n", FILE)
    for name in ("no_answers", "answers"):
        write(f"quantifiers_{kind}_{name}_input.txt", f'load "persons_{name}.json"\ngoals\nshow the total\nnext\n', FILE)
        run(f"quantifiers_{kind}_in_one_another_with_{name}", f"run quantifiers_{kind}.txt", f"quantifiers_{kind}_{name}_input.txt")

# Batches
write("goal.txt", "global\n  number x\ngoal x\n", FILE)
write("records.csv", filled("x\n", "1\n", INPUT), INPUT)
run("a_batch_of_short_records", "desk batch goal.txt", "records.csv")
write("two_records.csv", filled("x\n", "1\n2\n", INPUT), INPUT)
run("a_batch_of_two_records_in_turn", "desk batch goal.txt", "two_records.csv")
write("numbers.csv", "x\n" + "".join(f"{n}\n" for n in range(1_000_000, 9_388_607)), INPUT)
run("a_batch_of_records_that_differ", "desk batch goal.txt", "numbers.csv")
write("heads.csv", filled("", "x,", INPUT), INPUT)
run("a_batch_of_many_heads", "desk batch goal.txt", "heads.csv")
write("cells.csv", filled("x\n", ",", INPUT), INPUT)
run("a_batch_of_empty_cells", "desk batch goal.txt", "cells.csv")
write("open.csv", filled('x\n"', '""', INPUT), INPUT)
run("a_batch_of_quotes_that_never_close", "desk batch goal.txt", "open.csv")

# Caseloads
write("names.txt", filled("", '"a" goals\n', INPUT), INPUT)
run("a_caseload_of_one_name", "desk cases goal.txt", "names.txt")
write("turns.txt", filled("", '"a" answer x = 1\n"b" answer x = 2\n', INPUT), INPUT)
run("a_caseload_of_two_names_in_turn", "desk cases goal.txt", "turns.txt")

# Functions over time in one another, in each place of a rule: what they ask for, screens, reports, batches and caseloads
for name, words, given in all_written(lambda name, text: write(name, text, FILE)):
    run(name.replace(":", "").replace(" ", "_"), words, given)

with open("worst_runs.sh", "w") as file:
    file.write("\n".join(runs) + "\n")
