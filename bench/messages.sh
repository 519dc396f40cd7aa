#!/usr/bin/env bash
# messages.sh [PROGRAM]: texts of the greatest size with a fault at their end, for which the message on standard error finds the
# place, and the place that was first, in the text. PROGRAM is run in place of the built one. One line a case: its bytes, how it
# ended, seconds of the processor for the whole call, and how its message begins. Above a second, or what MOST names, is told.
set -eu
top=$(cd "$(dirname "$0")/.." && pwd)
work=$(mktemp -d)
trap 'rm -rf "$work"' EXIT
program=${1:-}
if [ -z "$program" ]; then
  "$top/rmt" >/dev/null 2>&1 || true # builds the program
  program=$top/crates/rmt/out/rmt
fi
python3 - "$program" "$work" <<'PY'
import os, subprocess, sys
program, work = sys.argv[1:]
MOST = float(os.environ.get("MOST", 1))  # seconds
wrong = 0
PROGRAM, ENTRIES, GROUPS = 1 << 20, 1 << 26, 1 << 20  # limits of the texts


def write(name, text):
    with open(f"{work}/{name}", "wb") as file:
        file.write(text.encode())


def run(case, name, words, status, front):
    """Runs a command, which is to end with this status and a message that begins so."""
    global wrong
    with open(f"{work}/said", "wb") as said:
        process = subprocess.Popen([program, *words.split()], cwd=work, stdout=subprocess.DEVNULL, stderr=said)
        _, ended, usage = os.wait4(process.pid, 0)
    got, seconds = os.waitstatus_to_exitcode(ended), usage.ru_utime + usage.ru_stime
    with open(f"{work}/said", encoding="utf-8") as said:
        text = said.read()
    good = got == status and text.startswith(front)
    wrong += not good or seconds > MOST
    size = os.path.getsize(f"{work}/{name}")
    print(f"{case}: {size:,} bytes, status {got}, {seconds:.2f} s: {text[:60].splitlines()[0] if text else ''}", end="")
    print("" if good else f"  WRONG: wanted status {status}, {front!r}", "" if seconds <= MOST else "  SLOW", flush=True)


def padded(size, front, filler, back):
    """A text of this size: the filler over and over between a front and a back."""
    room = size - len(front) - len(back)
    return front + (filler * (room // len(filler) + 1))[:room] + back


SMALL = "header h { f : 32; } next accept;\naction go(p : 9) { out_port = p; }\n"
TABLES = "table t { exact h.f; actions go; size 1048576; default go(0); }\ncontrol { apply t; }\n"
write("p", SMALL + TABLES)
write("none", "")
write("k", "0 00000001\n")
run("a program to begin with", "p", "compile p none i", 0, "")

# Programs: in one line, in lines of one byte, in lines of comments, and with a name that stands first in the text.
for case, text, front in (
    ("a byte in one line", padded(PROGRAM, "", " ", "@"), "text:1:1048576: "),
    ("a byte in lines", padded(PROGRAM, "", "\n", "@"), "text:1048576:1: "),
    ("a word behind comments", padded(PROGRAM, "", "// lpm\n", "\ntable t { lpm"), "text:149796:11: "),
    ("a name that stands first", padded(PROGRAM, "action a() { }\n", " " * 99 + "\n", "\naction a() { }"), "text:"),
    ("a name that no text declares", padded(PROGRAM, SMALL, " ", "control { apply q; }"), "text:3:"),
    ("two widths", padded(PROGRAM, "header h { f : 8; w : 16; } next accept;", "\n", "action a() { h.f = h.w; }"), "text:"),
):
    write("text", text)
    run(f"program, {case}", "text", "compile text none o", 4, front)

# Entries: a million lines of 64 bytes, of which the last is bad.
line = "t 0x{:046x} go {:09d}\n"
whole = ENTRIES // len(line.format(0, 0))
good = "".join(line.format(k, k % 512) for k in range(whole - 1))
for case, back, front in (
    ("a table that is none", "u" + line.format(whole, 1)[1:], f"text:{whole}:1: "),
    ("an argument that doesn't fit", line.format(whole, 512), f"text:{whole}:"),
    ("a key that stands first", line.format(0, 1), f"text:{whole}:1: "),
    ("no action", line.format(whole, 1).replace("go", "no"), f"text:{whole}:"),
):
    write("text", good + back)
    run(f"entries, {case}", "text", "compile p text o", 5, front)
write("q", (SMALL + TABLES).replace("1048576", str(whole - 1)))
write("text", good + line.format(whole, 1))
run("entries, a table that is full", "text", "compile q text o", 5, f"text:{whole}:")
for case, text in (("one line", padded(ENTRIES, "t ", "0", " go x")), ("empty lines", padded(ENTRIES, "", "\n", "t"))):
    write("text", text)
    run(f"entries, {case}", "text", "compile p text o", 5, "text:")

# Lines of packets and groups that are passed over, and a bad one.
write("text", padded(ENTRIES, "", "# a packet\n", "\n0 0g"))
run("packets behind comments", "text", "sim i text", 8, "text:")
write("text", padded(GROUPS, "", "# a group\n", "\n300 512"))
write("c", "")
run("groups behind comments", "text", "switch i text c o 1", 5, "text:")
sys.exit(1 if wrong else 0)
PY
