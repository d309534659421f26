"""Writes the rulebases and inputs that docs/PERFORMANCE.md speaks of into the folder in which it runs."""

import json

# 64 MiB of lines
with open("shows_input.txt", "w") as file:
    file.write("show the claimant is entitled\n" * (67108864 // 30))

# a sum over persons
with open("sum.txt", "w") as file:
    file.write("global\n  number the total\nentity the person\n  in global: the persons\n  number the income\nthe total = InstanceSum(the persons, the income)\n")

# persons, answered one by one, and the sum shown at the end or after each answer
def persons(name, count, shown_each):
    names = [f'"p{n}"' for n in range(count)]
    with open(name, "w") as file:
        file.write("list the persons = " + ", ".join(names) + "\n")
        for n in range(count):
            file.write(f"answer the income of {names[n]} = {n}; from 2020-01-01 {n + 1}; from 2022-06-01 {n + 2}\n")
            if shown_each:
                file.write("show the total\n")
        file.write("show the total\n")

persons("end_input.txt", 1000, False)
for count in (250, 500, 1000):
    persons(f"each_{count}_input.txt", count, True)

# a thousand persons, answered again and again, and the sum shown after each answer
for answers in (1000, 2000, 4000, 8000):
    with open(f"again_{answers}_input.txt", "w") as file:
        file.write("list the persons = " + ", ".join(f'"p{n}"' for n in range(1000)) + "\n")
        for n in range(answers):
            file.write(f'answer the income of "p{n % 1000}" = {n}; from 2020-01-01 {n + 1}; from 2022-06-01 {n + 2}\nshow the total\n')

# a chain of 4,000 attributes and 3,999 rules
with open("chain.txt", "w") as file:
    file.write("global\n" + "".join(f"  number a{n}\n" for n in range(4000)) + "".join(f"a{n} = a{n - 1} + 1\n" for n in range(1, 4000)))
with open("chain_input.txt", "w") as file:
    file.write("answer a0 = 0; from 2024-02-29 1\nshow a3999\n")

# 4,000 attributes, each with a rule, and 196,000 nodes in all
with open("wide.txt", "w") as file:
    file.write("global\n" + "".join(f"  number a{n}\n" for n in range(4000)) + "".join(f"a{n} = " + " + ".join(["1"] * 25) + "\n" for n in range(4000)))

# forty rules, each of which looks back a hundred years from each day
with open("forty.txt", "w") as file:
    file.write("verb is / is not / is /\nglobal\n  bool the claimant [is] employed\n")
    file.write("".join(f"  bool the claimant [is] steady {n}\n" for n in range(1, 41)))
    file.write("".join(f"the claimant is steady {n} if\n  TemporalAlwaysDays(36600, the claimant is employed)\n" for n in range(1, 41)))
with open("forty_input.txt", "w") as file:
    file.write("answer the claimant is employed = true\n" + "".join(f"show the claimant is steady {n}\n" for n in range(1, 41)))

# saved sessions: so many persons with ten changes each, all on other days
def saved(name, count):
    answers = []
    for n in range(count):
        line = [[0, "n:1"]] + [[29000 * k + n, f"n:{k + 1}"] for k in range(1, 10)]
        answers.append({"attribute": "the income", "line": line, "of": f"p{n}"})
    lists = [{"list": "the persons", "names": [f"p{n}" for n in range(count)], "of": ""}]
    with open(name, "w") as file:
        json.dump({"answers": answers, "format": "policy-case", "lists": lists, "model": 0, "version": 2}, file, separators=(",", ":"), sort_keys=True)

saved("persons_5000.json", 5000)
saved("persons_10000.json", 10000)
for count in (5000, 10000):
    with open(f"load_{count}_input.txt", "w") as file:
        file.write(f'load "persons_{count}.json"\n')
    with open(f"sum_{count}_input.txt", "w") as file:
        file.write(f'load "persons_{count}.json"\nshow the total\nsave "again_{count}.json"\nload "again_{count}.json"\n')

# schools with one pupil each: one change of a containment list a school
with open("schools.txt", "w") as file:
    file.write("global\n  number the total\nentity the school\n  in global: the schools\nentity the pupil\n  in the school: the pupils\n  number the age\nthe total = InstanceCount(the schools)\n")
for count in (250, 500, 1000, 2000, 4000):
    with open(f"schools_{count}_input.txt", "w") as file:
        file.write("list the schools = " + ", ".join(f'"s{n}"' for n in range(count)) + "\n")
        file.write("".join(f'list the pupils of "s{n}" = "p{n}"\n' for n in range(count)) + "show the total\n")

# the same with a list of all pupils, which is known once the pupils of each school are
with open("roll.txt", "w") as file:
    file.write("global\n  number the total\n  every the roll: the pupil\nentity the school\n  in global: the schools\nentity the pupil\n  in the school: the pupils\n  number the age\nthe total = InstanceCount(the roll)\n")

# as many instances and answers as a case can have
with open("full.txt", "w") as file:
    file.write("global\n  number the total\nentity the person\n  in global: the persons\n" + "".join(f"  number number {a}\n" for a in "abcde") + "the total = InstanceCount(the persons)\n")
names = [f"p{n}" for n in range(20000)]
answers = [{"attribute": f"number {a}", "line": [[0, "n:1"]], "of": name} for name in names for a in "abcde"]
lists = [{"list": "the persons", "names": names, "of": ""}]
with open("full.json", "w") as file:
    json.dump({"answers": answers, "format": "policy-case", "lists": lists, "model": 0, "version": 2}, file, separators=(",", ":"), sort_keys=True)
with open("full_input.txt", "w") as file:
    file.write('load "full.json"\nshow the total\n')

# 20,000 persons with nothing answered of them
with open("people.json", "w") as file:
    json.dump({"answers": [], "format": "policy-case", "lists": lists, "model": 0, "version": 2}, file, separators=(",", ":"), sort_keys=True)

# five conclusions a person, and 100,000 answers, one by one, each of which reaches one of them
with open("reach.txt", "w") as file:
    file.write("global\n  number the count\nentity the person\n  in global: the persons\n" + "".join(f"  number number {a}\n  number double {a}\n" for a in "abcde"))
    file.write("".join(f"double {a} = number {a} * 2\n" for a in "abcde") + "the count = InstanceCount(the persons)\n")
with open("reach_input.txt", "w") as file:
    file.write('load "people.json"\n' + "".join(f'answer number {a} of "{name}" = {n % 1000}\n' for n, name in enumerate(names) for a in "abcde") + "stats\n")

# the same, each of which reaches a sum over all persons besides
for count in (250, 500, 1000):
    with open(f"reached_sum_{count}_input.txt", "w") as file:
        file.write("list the persons = " + ", ".join(f'"p{n}"' for n in range(count)) + "\n" + "".join(f'answer the income of "p{n}" = {n}\n' for n in range(count)) + "show the total\nstats\n")

# the first answer of the chain, changed 1,000 times
with open("chain_changes_input.txt", "w") as file:
    file.write("".join(f"answer a0 = {n}\n" for n in range(1000)) + "show a3999\n")

# 1,000 groups of 20 members, one list after another
with open("groups.txt", "w") as file:
    file.write("global\n  number the count\nentity the group\n  in global: the groups\n  number the size\nentity the member\n  in the group: the members\n  number the age\nthe count = InstanceCount(the groups)\nthe size = InstanceCount(the members)\n")
for count in (250, 500, 1000):
    with open(f"groups_{count}_input.txt", "w") as file:
        file.write("list the groups = " + ", ".join(f'"g{n}"' for n in range(count)) + "\n")
        file.write("".join(f'list the members of "g{n}" = ' + ", ".join(f'"m{n}_{k}"' for k in range(20)) + "\n" for n in range(count)) + "stats\n")

# 900 homes of 20 persons, with ten conclusions a person that read one figure of all, and the list of all persons; then one person
# leaves each home, all homes go but one, or all persons of each home are others, where a list names nearly all homes
with open("homes.txt", "w") as file:
    file.write("global\n  number the figure\n  number the head count\n  reference the chosen: many the home\n  every the whole roll: the person\nentity the home\n  in global: the homes\n  number the size\nentity the person\n  in the home: the residents\n  number the income\n" + "".join(f"  number result {k}\n" for k in range(10)))
    file.write("the size = InstanceCount(the residents)\nthe head count = InstanceCount(the whole roll)\n" + "".join(f"result {k} = the income + the figure + {k}\n" for k in range(10)))
with open("homes.txt") as file:
    homes = file.readlines()
# .. the same without the count over all persons, and without the list of them too
with open("homes_uncounted.txt", "w") as file:
    file.writelines(line for line in homes if "head count" not in line)
with open("homes_plain.txt", "w") as file:
    file.writelines(line for line in homes if "head count" not in line and "the whole roll" not in line)
moving = 'answer the figure = 5\nlist the homes = ' + ", ".join(f'"h{n}"' for n in range(900)) + "\n" + "".join(f'list the residents of "h{n}" = ' + ", ".join(f'"p{n}_{k}"' for k in range(20)) + "\n" for n in range(900))
with open("homes_made_input.txt", "w") as file:
    file.write(moving + "stats\n")
with open("homes_left_input.txt", "w") as file:
    file.write(moving + "".join(f'list the residents of "h{n}" = ' + ", ".join(f'"p{n}_{k}"' for k in range(1, 20)) + "\n" for n in range(900)) + "stats\n")
with open("homes_gone_input.txt", "w") as file:
    file.write(moving + 'list the homes = "h0"\nstats\n')
with open("homes_chosen_input.txt", "w") as file:
    file.write(moving + "list the chosen = " + ", ".join(f'"h{n}"' for n in range(1, 900)) + "\n" + "".join(f'list the residents of "h{n}" = ' + ", ".join(f'"q{n}_{k}"' for k in range(20)) + "\n" for n in range(90)) + "stats\n")

# fifty conclusions a person: 1,000,000 slots for 20,000 persons
with open("slots.txt", "w") as file:
    file.write("global\n  number the count\nentity the person\n  in global: the persons\n" + "".join(f"  number number {a}\n" for a in "abcde") + "".join(f"  number result {n}\n" for n in range(50)))
    file.write("".join(f"result {n} = number {'abcde'[n % 5]} + {n}\n" for n in range(50)))
with open("slots_input.txt", "w") as file:
    file.write('load "full.json"\nstats\n')

# each conclusion mentions two earlier ones
with open("pairs.txt", "w") as file:
    file.write("global\n" + "".join(f"  number a{n}\n" for n in range(4000)) + "goal a3999\n" + "".join(f"a{n} = a{n - 1} + a{n - 2}\n" for n in range(2, 4000)))
with open("pairs_input.txt", "w") as file:
    file.write("screen\nanswer a0 = 0; from 2024-01-01 0.0001\nnext\nanswer a1 = 0\nnext\nreport a3999 at 2024-01-01\n")

# forty windows of 36,600 days, one inside the other
with open("nested.txt", "w") as file:
    file.write("verb is / is not / is /\nglobal\n" + "".join(f"  bool the claimant [is] steady {n}\n" for n in range(41)) + "goal the claimant is steady 40\n")
    file.write("".join(f"the claimant is steady {n} if\n  TemporalAlwaysDays(36600, the claimant is steady {n - 1})\n" for n in range(1, 41)))
with open("nested_input.txt", "w") as file:
    file.write("next\nanswer the claimant is steady 0 = true; from 2399-01-01 unknown\nnext\nanswer the claimant is steady 0 = true\nnext\nreport the claimant is steady 40 at 2399-12-31\n")

# a quantifier over 20,000 persons
with open("everyone.txt", "w") as file:
    file.write("global\n  number the total\nentity the person\n  in global: the persons\n" + "".join(f"  number number {a}\n" for a in "abcde") + "goal the total\nthe total = InstanceSum(the persons, number a)\n")
with open("everyone_input.txt", "w") as file:
    file.write('load "people.json"\nnext\nload "full.json"\nnext\nreport the total at 2024-01-01\n')

# 300,000 records of ten columns, and 300,000 lines of 100,000 cases, each case's lines behind one another and in turn
with open("batch.txt", "w") as file:
    file.write("verb is / is not / is /\nglobal\n" + "".join(f"  number n{k}\n" for k in range(9)) + "  bool the case [is] open\n  number the sum\n  bool the case [is] large\ngoal the sum\ngoal the case is large\n")
    file.write("the sum = " + " + ".join(f"n{k}" for k in range(9)) + "\nthe case is large if\n  the case is open and\n  the sum > 100\n")
with open("batch.csv", "w") as file:
    file.write(",".join(f"n{k}" for k in range(9)) + ",the case is open\n")
    for i in range(300000):
        file.write(",".join(str((i * 7 + k * 3) % 40) for k in range(9)) + (",true\n" if i % 2 else ",false\n"))
with open("cases_input.txt", "w") as file:
    for n in range(100000):
        file.write(f'"c{n}" answer n0 = {n}\n"c{n}" answer the case is open = true\n"c{n}" goals\n')
with open("turns_input.txt", "w") as file:
    for command in ("answer n0 = 5", "answer the case is open = true", "goals"):
        file.write("".join(f'"c{n}" {command}\n' for n in range(100000)))

