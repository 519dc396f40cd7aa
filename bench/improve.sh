#!/usr/bin/env bash
# Programs of 20 to 100 tables are made by chance from the numbers 1, 2, .., until 200 are found that the rule places in more
# stages than the bound: how many of those get fewer stages from `improve` with a budget of 10, of 100 and of 1,000, and as few
# as the bound, with the seconds that a call takes at most. `bench/improve.sh FOLDER` keeps the programs there.
set -eu
top=$(cd "$(dirname "$0")/.." && pwd)
if [ $# -gt 0 ]; then
    work=$1
    mkdir -p "$work"
else
    work=$(mktemp -d)
    trap 'rm -rf "$work"' EXIT
fi
"$top/rmt" >/dev/null 2>&1 || true # builds the program
python3 - "$top" "$work" <<'PY'
import os, random, subprocess, sys, time
top, work = sys.argv[1:]
rmt = f"{top}/crates/rmt/out/rmt"
BUDGETS = (10, 100, 1000)
PROGRAMS = 200


def table(chance, number, written, read, near):
    """A table by chance, which looks up fields that are near and whose action writes one field and may read another."""
    action = chance.choice([f"meta.{written} = 1", f"meta.{written} = meta.{read}", f"meta.{written} = meta.{read} + 1"])
    head = f"action set{number}() {{ {action}; }}\ntable t{number} {{ "
    kind = chance.choice(["exact", "ternary"])
    keys = ", ".join(f"meta.{key}" for key in chance.sample(near, min(len(near), chance.randint(1, 3))))
    size = 2 ** (chance.randint(10, 14) if kind == "exact" else chance.randint(9, 12))
    return head + f"{kind} {keys}; actions set{number}; size {size}; default set{number}(); }}\n"


def program(number):
    """A program of 20 to 100 tables: most read and write fields of one group, some read those of another."""
    chance = random.Random(number)
    count = chance.randint(20, 100)
    groups = [[f"g{g}_{i}" for i in range(chance.randint(2, 6))] for g in range(chance.randint(15, 25))]
    width = {name: chance.choice([8, 8, 16, 32]) for group in groups for name in group}
    lines = ["header h { f : 8; } next accept;\n", "meta { ", *[f"{name} : {width[name]}; " for name in width], "}\n"]
    for t in range(count):
        group = chance.choice(groups)
        near = group if chance.random() < 0.8 else chance.choice(groups)
        written = chance.choice(group)
        read = chance.choice([name for name in near if width[name] == width[written]] or [written])
        lines.append(table(chance, t, written, read, near))
    lines += ["control { ", *[f"apply t{t}; " for t in range(count)], "}\n"]
    return "".join(lines)


def stages(words):
    """The stages and the bound that a command prints, or neither, and its seconds."""
    begun = time.time()
    ended = subprocess.run([rmt, *words], stdout=subprocess.PIPE, stderr=subprocess.DEVNULL, text=True)
    seconds = time.time() - begun
    if ended.returncode == 6:
        return None, None, seconds
    if ended.returncode != 0:
        sys.exit(f"{words} ended with status {ended.returncode}: {ended.stdout}")
    lines = ended.stdout.splitlines()
    return int(lines[0].split()[1]), int(lines[1].split()[1]), seconds


open(f"{work}/none.ent", "w").close()
above, made = 0, 0
fewer, least, longest = ({budget: 0 for budget in BUDGETS} for _ in range(3))
while above < PROGRAMS:
    made += 1
    source, image = f"{work}/{made}.rmt", f"{work}/image"
    with open(source, "w") as file:
        file.write(program(made))
    by_rule, bound, _ = stages(["compile", source, f"{work}/none.ent", image])
    if by_rule is None or by_rule == bound:
        os.remove(source)
        continue
    above += 1
    for budget in BUDGETS:
        better, bound, seconds = stages(["improve", source, f"{work}/none.ent", image, str(budget)])
        longest[budget] = max(longest[budget], seconds)
        fewer[budget] += better < by_rule
        least[budget] += better == bound
print(f"{PROGRAMS} of {made} programs are placed by the rule in more stages than the bound")
for budget in BUDGETS:
    print(f"budget {budget}: {fewer[budget]} of them in fewer stages, {least[budget]} in as few as the bound, "
          f"{longest[budget]:.2f} s at most")
PY
