#!/usr/bin/env bash
# hostile.sh [PROGRAM]: texts and images that are as large or as unkind as they can be. PROGRAM is run in place of the built one.
# One line a case: its bytes, how it ended, seconds and peak memory; cases that grow are run at half their size and at the whole,
# so that time and memory can be seen to be linear in the bytes. Some 3 GB of files are made, one case after another.
set -eu
top=$(cd "$(dirname "$0")/.." && pwd)
work=$(mktemp -d)
trap 'rm -rf "$work"' EXIT
program=${1:-}
if [ -z "$program" ]; then
  "$top/rmt" >/dev/null 2>&1 || true # builds the program
  program=$top/crates/rmt/out/rmt
fi
python3 - "$program" "$work" <<'PY'
import os, subprocess, sys, time
program, work = sys.argv[1:]
wrong = 0


def write(name, pieces):
    """Makes a file of pieces, and gives its bytes."""
    with open(f"{work}/{name}", "wb") as f:
        for piece in pieces:
            f.write(piece if isinstance(piece, bytes) else piece.encode())
    return os.path.getsize(f"{work}/{name}")


def many(piece, count):
    """A piece so many times. This process stays small, since what it holds counts in the memory of what it starts."""
    return (piece for _ in range(count))


def run(case, size, words, status, front=""):
    """Runs a command, which is to end with this status and a text that begins so, and tells what it took."""
    global wrong
    begun = time.time()
    with open(f"{work}/out", "wb") as out, open(f"{work}/err", "wb") as err:
        process = subprocess.Popen([program, *words], cwd=work, stdout=out, stderr=err)
        _, ended, usage = os.wait4(process.pid, 0)
    seconds, got = time.time() - begun, os.waitstatus_to_exitcode(ended)
    with open(f"{work}/out", "rb") as out:
        text = out.read(len(front.encode()) + 80)
    good = got == status and text.startswith(front.encode())
    wrong += not good
    print(f"{case}: {size:,} bytes, status {got}, {seconds:.2f} s, {usage.ru_maxrss / 1024:.0f} MiB"
          + ("" if good else f"  WRONG: wanted status {status}, got {text[:80]!r}"), flush=True)


MI = 1 << 20
PLAIN = "header h { k : 32; x : 16; } next accept;\naction go(p : 9) { out_port = p; }\ntable t { %s h.k; actions go; size %d; default go(0); }\ncontrol { apply t; }\n"
write("p", [PLAIN % ("exact", 1024)])
write("e", [])
write("k", ["0 000000010002\n"])
run("an image to begin with", 0, ["compile", "p", "e", "i"], 0, "stages 1")

# Texts of 70 MB, and just within their limits.
size = write("long", many(b"a" * 1000 + b"\n", 70_000))
run("a program of 70 MB", size, ["compile", "long", "e", "o"], 9)
run("entries of 70 MB", size, ["compile", "p", "long", "o"], 9)
run("an image of 70 MB that is none", size, ["sim", "long", "k"], 7, "bad image 1")
run("packets of 70 MB, bad at once", size, ["sim", "i", "long"], 8, "bad packets 1 line 1")
for half in (33_554_432, 67_108_864):
    size = write("blank", many(b"\n" * 1024, half // 1024))
    run("entries of empty lines", size, ["compile", "p", "blank", "o"], 0, "stages 1")
    size = write("late", (p for pieces in (many(b"\n" * 1024, half // 1024 - 1), [b"\n" * 1022, b"t\n"]) for p in pieces))
    run("entries that are bad at their end", size, ["compile", "p", "late", "o"], 5, "bad entries 1 line")
    size = write("word", (p for pieces in ([b"t 0x"], many(b"0" * 1024, half // 1024 - 1), [b"1 go 1"]) for p in pieces))
    run("one entry as long as its text", size, ["compile", "p", "word", "o"], 0, "stages 1")
for half in (524_288, 1_048_576):
    size = write("pl", [b" " * (half - 1), b"@"])
    run("a program that is bad at its end", size, ["compile", "pl", "e", "o"], 4, "bad program 1 line 1 column")
    size = write("pl", ["meta { "] + [f"a{k:07d}:1; " for k in range((half - 32) // 12)] + ["}\ncontrol { }\n"])
    run("a program of fields", size, ["compile", "pl", "e", "o"], 4, "bad program 18")
    size = write("pl", ["header h { f : 16; } next (f) { "] + [f"{k % 65536}:accept; " for k in range((half - 80) // 15)] + ["else : accept; }\ncontrol { }\n"])
    run("a program of cases", size, ["compile", "pl", "e", "o"], 6, "no fit parser")
    size = write("pl", [f"action a{k:06d}(){{}}\n" for k in range((half - 20) // 19)] + ["control { }\n"])
    run("a program of actions", size, ["compile", "pl", "e", "o"], 4, "bad program")
    size = write("pl", [PLAIN % ("exact", 8)[0:2], "// ", b"x" * (half - 400), "\n"])
    run("a program of one comment", size, ["compile", "pl", "e", "o"], 0, "stages 1")

# Packets: one line of 1 GB, and of half.
for digits in (500_000_000, 1_000_000_000):
    size = write("line", (p for pieces in ([b"0 "], many(b"5a" * 500, digits // 1_000), [b"\n"]) for p in pieces))
    run("one packet line", size, ["sim", "i", "line"], 8, "bad packets 3 line 1")
    run("one packet line, plainly", size, ["plain", "p", "e", "line"], 8, "bad packets 3 line 1")
    size = write("line", many(b"#" + b"a" * 999, digits // 1_000))
    run("one comment line", size, ["sim", "i", "line"], 0)
    os.remove(f"{work}/line")

# Images that declare of each list the greatest count that its number can say, with nothing or zeros behind it.
LANES = bytes.fromhex("400009 410009 000001")
BODY = {
    "headers": LANES + b"\xff",
    "pieces": LANES + b"\x01" + bytes.fromhex("000101 40 ff"),
    "states": LANES + b"\x00\xff\xff",
    "lookups": LANES + b"\x00\x00\x01\xff",
    "entries": LANES + b"\x00\x00\x01\x00\xff\xff",
    "extracts": LANES + b"\x00\x00\x01\x00\x00\x01" + bytes.fromhex("00 00000000 00000000 00 00 00 ff"),
    "stages": LANES + b"\x00\x00\x01\x00\x00\x00\xff",
    "units": LANES + b"\x00\x00\x01\x00\x00\x00\x01" + b"\x00\x00\xff",
    "tests": LANES + b"\x00\x00\x01\x00\x00\x00\x01" + bytes.fromhex("0000 01 00 00 00 ff"),
    "keys": LANES + b"\x00\x00\x01\x00\x00\x00\x01" + bytes.fromhex("0000 01 01 00 00 00 01 0000 0000 ffff"),
    "blocks": LANES + b"\x00\x00\x01\x00\x00\x00\x01" + bytes.fromhex("0000 01 01 00 00 01 01 0000 ff 01 0000 01 ff ffff ff 00"),
    "numbers": LANES + b"\x00\x00\x01\x00\x00\x00\x01" + bytes.fromhex("0000 01 01 00 00 00 01 0000 0000 00 ffffffff"),
    "operations": LANES + b"\x00\x00\x01\x00\x00\x00\x01" + bytes.fromhex("0000 01 01 00 00 00 01 0000 0000 00 00000000 ff"),
    "rows of SRAM": LANES + b"\x00\x00\x01\x00\x00\x00\x01" + bytes.fromhex("0000 00 ffffffff"),
    "rows of TCAM": LANES + b"\x00\x00\x01\x00\x00\x00\x01" + bytes.fromhex("0000 00 00000000 ffffffff"),
    "names": LANES + b"\x00\x00\x01\x00\x00\x00\x00\xff",
    "a name": LANES + b"\x00\x00\x01\x00\x00\x00\x00\x01\x00\xff\xff\xff\xff",
    "ranks": LANES + b"\x00\x00\x01\x00\x00\x00\x00\x01\x00" + bytes.fromhex("00000001 61 02 00000001 0000 00 ffffffff"),
    "tails": LANES + b"\x00\x00\x01\x00\x00\x00\x00\x00\xff\xff",
}
for name, body in BODY.items():
    version = 3 if name == "tails" else 2
    for zeros in (0, 100_000_000):
        size = write("greatest", (p for pieces in ([b"RMTI" + version.to_bytes(2, "big") + b"\x00" + body], many(b"\x00" * 1000, zeros // 1000)) for p in pieces))
        run(f"an image with the greatest count of {name}", size, ["report", "greatest"], 7, "bad image ")

# Maps: too long, and of each list the greatest count that its number can say, with nothing or zeros behind it.
run("a map to begin with", 0, ["compile", "p", "e", "i", "m"], 0, "stages 1")
run("a map that belongs to its image", 0, ["verify", "p", "e", "i", "m"], 0, "yes")
with open(f"{work}/longest", "wb") as longest:
    longest.truncate(268_435_457)
run("a map of a byte more than one may have", 268_435_457, ["verify", "p", "e", "i", "longest"], 9)
for name, body in (("fields", "ffffffff"), ("lanes", "00000001 ff"), ("joins", "00000000 ffff"), ("parts", "00000000 0000 ffff"),
                   ("starts", "00000000 0000 0000 ff"), ("cells", "00000000 0000 0000 00 ffffffff")):
    for zeros in (0, 5_000_000, 10_000_000):
        size = write("greatest", (p for pieces in ([b"RMTM\x00\x01" + bytes.fromhex(body)], many(b"\x00" * 1000, zeros // 1000)) for p in pieces))
        run(f"a map with the greatest count of {name}", size, ["verify", "p", "e", "i", "greatest"], 7, "bad image 7")

# Keys that all have one row of a way, by the hash of docs/chip.md, under seed 0: so few bytes give them few rows in all ways.
def row(key, way, rows, seed=0):
    hash = 14695981039346656037
    for byte in (seed, way, *key):
        hash = (hash ^ byte) * 1099511628211 % 2**64
    return hash // 2**32 % rows


for wanted in (50, 100):
    keys, k = [], 0
    while len(keys) < wanted:
        if row(k.to_bytes(4, "big"), 0, 1024) == 0:
            keys.append(k)
        k += 9973
        k %= 2**32
    write("pr", [PLAIN % ("exact", 1024)])
    size = write("er", [f"t {key} go 1\n" for key in keys])
    run(f"{wanted} keys of one row", size, ["compile", "pr", "er", "o"], 6, "no fit load t")
for count in (100, 1024):
    size = write("er", [f"t {key} go 1\n" for key in range(count)])
    run(f"{count} keys that follow one another", size, ["compile", "pr", "er", "o"], 6, "no fit load t")
for count in (131_072, 262_144):
    size = write("er", [f"t {key} go 1\n" for key in range(count)])
    write("pr", [PLAIN % ("exact", count)])
    run(f"{count} keys that follow one another", size, ["compile", "pr", "er", "o"], 6, "no fit load t")

# As many masks as a chip has rows, and a packet that looks through them.
for count in (131_072, 262_144):
    write("pm", [PLAIN % ("ternary", count)])
    size = write("em", [f"t {k} {k << 14 & 0xffffffff}&{0xffffffff ^ k} go {k % 512}\n" for k in range(count)])
    run(f"{count} masks", size, ["compile", "pm", "em", "m"], 0, "stages ")
    size = write("km", [f"{k % 512} {k * 2654435761 % 2**32:08x}0001\n" for k in range(100)])
    run(f"100 packets through {count} masks", size, ["sim", "m", "km"], 0, "0 ")
    run(f"100 packets through {count} masks, plainly", size, ["plain", "pm", "em", "km"], 0, "0 ")

# Names as like one another as they can be: long, and different at their end alone.
for half in (524_288, 1_048_576):
    stem = "n" * 2000
    count = half // 2400 // 2
    names = [f"{stem}{k:04d}" for k in range(min(count, 120))]
    size = write("pn", ["header h { f : 8; } next accept;\n"] + [f"action {name}() {{ out_port = 1; }}\n" for name in names]
                 + ["control { }\n"])
    run("long names that differ at their end", size, ["compile", "pn", "e", "o"], 0, "stages 0")
    for pairs in (half // 60,):
        # pairs of letters with the same sum and the same product of places, as hashes that add up collide on
        blocks = ["Aa", "BB"]
        words = ["".join(blocks[n >> bit & 1] for bit in range(14)) for n in range(min(pairs, 16_000))]
        size = write("pn", ["header h { f : 8; } next accept;\nmeta { "] + [f"{word} : 1; " for word in words] + ["}\ncontrol { }\n"])
        run("names that collide", size, ["compile", "pn", "e", "o"], 4, "bad program 18")
sys.exit(1 if wrong else 0)
PY
