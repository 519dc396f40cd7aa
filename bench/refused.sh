#!/usr/bin/env bash
# refused.sh [PROGRAM]: memory that is refused. PROGRAM is run in place of the built one.
# First each command runs with the n-th call of the allocator refused, for n from 1 on until a run meets no refusal, on a program
# with every kind of table, counters, tails and names: it answers NoMemory or its usual answer, with the files and the front of
# the text as docs/commands.md says. Above 10,000, or the number that EVERY names, some 1,000 numbers are tried, or as many as
# SPREAD names, evenly spread; what is tried is told.
# Then an open chip is shown to run without memory: the allocations of `sim` over 500 frames of 9,216 bytes through 32 stages
# with the most writes are counted, and ten times as many run under an allocator that refuses every call behind that count.
set -eu
top=$(cd "$(dirname "$0")/.." && pwd)
work=$(mktemp -d)
trap 'rm -rf "$work"' EXIT
program=${1:-}
if [ -z "$program" ]; then
  "$top/rmt" >/dev/null 2>&1 || true # builds the program
  program=$top/crates/rmt/out/rmt
fi
cat > "$work/refuse.c" <<'C'
#define _GNU_SOURCE
#include <dlfcn.h>
#include <fcntl.h>
#include <stdio.h>
#include <stdlib.h>
#include <unistd.h>
static long calls, at = -1, most = -1;
static int refused(void) {
    if (at < 0) at = getenv("AT") ? atol(getenv("AT")) : 0;
    if (most < 0) most = getenv("MOST") ? atol(getenv("MOST")) : 0;
    calls++;
    return calls == at || (most && calls > most);
}
#define REAL(name) static void *(*real)(); if (!real) real = dlsym(RTLD_NEXT, name)
void *malloc(size_t n) { REAL("malloc"); return refused() ? 0 : real(n); }
void *realloc(void *p, size_t n) { REAL("realloc"); return refused() ? 0 : real(p, n); }
void *aligned_alloc(size_t a, size_t n) { REAL("aligned_alloc"); return refused() ? 0 : real(a, n); }
int posix_memalign(void **p, size_t a, size_t n) {
    static int (*real)(); if (!real) real = dlsym(RTLD_NEXT, "posix_memalign");
    return refused() ? 12 : real(p, a, n);
}
__attribute__((destructor)) static void told(void) {
    char line[32];
    int n = snprintf(line, sizeof line, "%ld\n", calls);
    int file = getenv("CALLS") ? open(getenv("CALLS"), O_WRONLY | O_CREAT | O_TRUNC, 0600) : -1;
    if (file >= 0 && write(file, line, n) != n) _exit(99);
}
C
gcc -O1 -w -shared -fPIC -o "$work/refuse.so" "$work/refuse.c" -ldl
python3 - "$program" "$work" <<'PY'
import os, subprocess, sys
program, work = sys.argv[1:]
EVERY = int(os.environ.get("EVERY", 10_000))  # up to this number each call is refused
SPREAD = int(os.environ.get("SPREAD", 1_000))  # how many of those behind it are
NO_MEMORY = 10

TEXT = """header h { n : 4; z : 4; tail n * 4 - 4; } next k;
header k { a : 32; b : 48; c : 8; } next (c) { 1 & 0x0f : l; else : accept; }
header l { d : 16; } next accept;
meta { x : 8; y : 16; }
action go(p : 9) { out_port = p; }
action note(v : 16) { meta.y = v; k.c = k.c + 1; }
action no() { }
action stop() { drop = 1; }
table e { exact k.b; actions go, note; size 64; counted; default no(); }
table r { prefix k.a; actions go; size 64; counted; default no(); }
table t { ternary k.a, k.c; actions stop, note; size 64; default no(); }
table d { default note(7); }
control {
  if (l.valid == 1) { apply e { hit { apply r; } miss { apply d; } } }
  apply t;
}
"""
ENTRIES = "e 1 go 3\ne 2 note 9\nr 0x0a000000/8 go 2\nr 0/0 go 1\nt 5 0x0b000000&0xff000000 * stop\nt 9 * 1 note 4\n"
PACKETS = "".join(f"{k % 512} 2{k % 16:x}aabbccdd{10 + k % 2:02x}000001{k % 3:012x}{k % 4:02x}{k:04x}\n" for k in range(40))


def write(name, data):
    with open(f"{work}/{name}", "wb") as f:
        f.write(data)


def read(name):
    with open(f"{work}/{name}", "rb") as f:
        return f.read()


def run(words, **environment):
    """The status and the output of a call, and how many calls of the allocator it made."""
    done = subprocess.run([program, *words], cwd=work, stdout=subprocess.PIPE, stderr=subprocess.DEVNULL,
                          env={**os.environ, "LD_PRELOAD": f"{work}/refuse.so", "CALLS": f"{work}/calls", **environment})
    try:
        calls = int(read("calls"))
    except (OSError, ValueError):
        calls = 0  # the program was ended from outside
    return done.returncode, done.stdout, calls


FILES = {"p": TEXT.encode(), "e": ENTRIES.encode(), "k": PACKETS.encode(), "o": b"before", "n": b"before"}
for name, data in FILES.items():
    write(name, data)
status, _, _ = run(["compile", "p", "e", "i", "m"])
if status != 0:
    sys.exit(f"refused.sh: the program is not compiled: status {status}")
FILES["i"], FILES["m"] = read("i"), read("m")

# The words of each command, and whether it prints nothing where memory is refused. `o` is the file that it writes, and `n` the
# one behind it.
WRITTEN = ("o", "n")
COMMANDS = [
    (["compile", "p", "e", "o"], True),
    (["compile", "p", "e", "o", "n"], True),
    (["improve", "p", "e", "o", "10"], True),
    (["sim", "i", "k"], False),
    (["probe", "i", "k", "20"], False),
    (["plain", "p", "e", "k"], False),
    (["report", "i"], True),
    (["verify", "p", "e", "i", "m"], True),
    (["sample", "3"], True),
    (["compile", "p", "k", "o"], False),  # bad entries
    (["sim", "k", "k"], False),  # no image
]


def judge(words, number, whole, is_quiet):
    """What is wrong with a call whose n-th allocation is refused; and whether it met that."""
    status, printed, calls = run(words, AT=str(number))
    usual, text, written = whole
    left = [read(name) for name in WRITTEN]
    before = [FILES[name] for name in WRITTEN]
    wrong = []
    if status == NO_MEMORY and usual != NO_MEMORY:
        if not text.startswith(printed) or (is_quiet and printed):
            wrong.append(f"printed {printed[:60]!r}")
        # memory may be refused between the two files
        if left != before and ("n" not in words or left != [written[0], before[1]]):
            wrong.append("a file was written")
    elif status == usual:
        if printed != text:
            wrong.append(f"printed {printed[:60]!r}")
        if left != written:
            wrong.append("another file")
    else:
        wrong.append(f"status {status}")
    for name in FILES:
        if name not in WRITTEN and read(name) != FILES[name]:
            wrong.append(f"{name} was changed")
    for name in WRITTEN:
        write(name, FILES[name])
    return wrong, calls, status


failed = 0
for words, is_quiet in COMMANDS:
    status, text, count = run(words)
    whole = status, text, [read(name) for name in WRITTEN]
    for name in WRITTEN:
        write(name, FILES[name])
    step = max(1, (count - EVERY) // SPREAD)
    numbers = list(range(1, min(count, EVERY) + 1)) + list(range(EVERY + step, count + 1, step)) + [count + 1]
    refused = bad = 0
    for number in numbers:
        wrong, calls, answer = judge(words, number, whole, is_quiet)
        refused += answer == NO_MEMORY
        if wrong:
            bad += 1
            if bad <= 5:
                print(f"WRONG: {' '.join(words)}, call {number} refused: {'; '.join(wrong)}")
        if number == count + 1 and (answer != status or calls >= number):
            bad += 1
            print(f"WRONG: {' '.join(words)}: a run without a refusal has {calls} calls")
    tried = f"each of {min(count, EVERY):,}" + (f", and above that each {step}th up to {count:,}" if count > EVERY else "")
    print(f"{' '.join(words)}: {count:,} calls of the allocator; refused {tried}: {refused:,} times NoMemory, "
          f"{len(numbers) - refused:,} times status {status}, {bad} wrong", flush=True)
    failed += bad

# An open chip runs without memory.
tables = "".join(f"table t{k} {{ default add(); }}\n" for k in range(32))
fields = " ".join(f"m{k} : 32;" for k in range(40))
adds = " ".join(f"meta.m{k} = meta.m{k} + 1;" for k in range(40))
applied = " ".join(f"apply t{k};" for k in range(32))
write("p.rmt", f"header h {{ f : 8; }} next accept;\nmeta {{ {fields} }}\naction add() {{ {adds} }}\n{tables}control {{ {applied} }}\n".encode())
write("p.ent", b"")
for name, count in (("few", 500), ("many", 5000)):
    write(f"{name}.pkt", "".join(f"{k % 512} " + f"{k % 256:02x}" * 9216 + "\n" for k in range(count)).encode())
run(["compile", "p.rmt", "p.ent", "p.img"])
_, _, count = run(["sim", "p.img", "few.pkt"])
status, text, _ = run(["sim", "p.img", "many.pkt"], MOST=str(count))
print(f"{count} allocations for 500 packets; 5000 under no more: status {status}, {text.count(b'' + bytes([10]))} lines")
sys.exit(1 if failed or status else 0)
PY
