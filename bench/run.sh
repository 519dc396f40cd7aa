#!/usr/bin/env bash
# Seconds and peak memory of `./rmt`, one line a case: short packets through one stage and through 32; frames of 9,216 bytes with 385 of
# them in flight; a counted table of 100,000 exact keys, and one of 20,000 ternary entries under 40 masks, by `sim` and by `plain`; one of
# as many under random masks, by `sim`; 20,000 packets with 2,000 commits over 200 entries; some 100,000 changed cells with packets
# between them; two tables of 1,000,000 exact keys each, which are compiled, verified and run, and a thousand commits of one change
# each on such tables, additions, removals and both, each beside one reading of the image; 1,000,000 additions in one commit; 128
# tables; a ternary table that is too large for the chip; and images of 1,048,576 exact and of 262,144 ternary entries, read without
# and with their names; and captures of 16 MiB through the router of `examples/`. Behind them what `bench/improve.sh` and
# `bench/captures.sh` print; the latter wants `tshark` and `tcpdump`.
set -eu
top=$(cd "$(dirname "$0")/.." && pwd)
work=$(mktemp -d)
trap 'rm -rf "$work"' EXIT
"$top/rmt" >/dev/null || true # builds the program
python3 - "$top" "$work" <<'PY'
import os, random, struct, subprocess, sys, time
top, work = sys.argv[1:]
program = f"{top}/crates/rmt/out/rmt"


def write(name, lines):
    with open(f"{work}/{name}", "w") as f:
        f.writelines(lines)


COMMANDS = ("compile", "sim", "plain", "report", "switch", "verify")


def run(*words, wanted=0, into=os.devnull):
    """Runs the program, which is to end with that status, and gives its seconds and its peak memory in MiB. It prints into a file."""
    begun = time.time()
    with open(into, "wb") as out:
        process = subprocess.Popen([program, *[w if w.isdigit() or w in COMMANDS else f"{work}/{w}" for w in words]], stdout=out)
        _, status, usage = os.wait4(process.pid, 0)
    if os.waitstatus_to_exitcode(status) != wanted:
        sys.exit(f"{words} ended with status {os.waitstatus_to_exitcode(status)}")
    return time.time() - begun, usage.ru_maxrss / 1024


def printed(*words):
    """The same, and the lines that it prints."""
    seconds, peak = run(*words, into=f"{work}/out")
    with open(f"{work}/out") as out:
        return seconds, peak, out.read().splitlines()


def compiled(name, *files):
    seconds, peak = run("compile", f"{name}.rmt", f"{name}.ent", f"{name}.img", *files)
    print(f"{name}: compiled {'with its map ' if files else ''}in {seconds:.2f} s, {peak:.0f} MiB")


def packets(name, count, packet, commands=("sim", "plain")):
    write(f"{name}.pkt", (packet(k) for k in range(count)))
    for command in commands:
        words = (command, f"{name}.img") if command == "sim" else (command, f"{name}.rmt", f"{name}.ent")
        seconds, peak = run(*words, f"{name}.pkt")
        print(f"{name}: {words[0]} of {count} packets in {seconds:.2f} s, {count / seconds:,.0f} a second, {peak:.0f} MiB")


def key(i):
    return i * 2654435761 % 2**32


def wide(i):
    return 0x020000000000 + key(i)


chain = "".join(f"table t{k} {{ exact meta.x; actions inc; size 1; default inc(); }}\n" for k in range(32))
applied = " ".join(f"apply t{k};" for k in range(32))
tabled = "header h {{ k : 32; x : 16; }} next accept;\naction go(p : 9) {{ out_port = p; }}\n" \
    "table t {{ {} h.k; actions go; size {}; counted; default go(0); }}\ncontrol {{ apply t; }}\n"
masks = [0xffffffff ^ 1 << m for m in range(32)] + [0xffffffff ^ 3 << m for m in range(8)]

write("one.rmt", ["header h { f : 8; } next accept;\naction send() { out_port = 1; }\ntable t { default send(); }\ncontrol { apply t; }\n"])
write("one.ent", [])
compiled("one")
packets("one", 4_000_000, lambda k: f"{k % 512} {k * 7919 % 2**64:016x}\n")

write("many.rmt", ["header h { f : 8; } next accept;\nmeta { x : 8; }\naction inc() { meta.x = meta.x + 1; }\n", chain, f"control {{ {applied} }}\n"])
write("many.ent", [])
compiled("many")
packets("many", 100_000, lambda k: f"{k % 512} {k % 256:02x}{k >> 8 & 255:02x}\n")
packets("many", 3_000, lambda k: f"{k % 512} " + f"{k % 256:02x}" * 9216 + "\n")

write("exact.rmt", [tabled.format("exact", 100_000)])
write("exact.ent", (f"t {key(i)} go {i % 512}\n" for i in range(100_000)))
compiled("exact")
packets("exact", 1_000_000, lambda k: f"{k % 512} {key(k * 7919 % 100_000):08x}0102\n")

write("ternary.rmt", [tabled.format("ternary", 20_000)])
write("ternary.ent", (f"t {i} {key(i)}&{masks[i % 40]} go {i % 512}\n" for i in range(20_000)))
compiled("ternary")
packets("ternary", 1_000_000, lambda k: f"{k % 512} {key(k * 7919 % 20_000):08x}0102\n")

random.seed(1)
write("random.rmt", [tabled.format("ternary", 20_000)])
write("random.ent", (f"t {i} {key(i)}&{random.getrandbits(32)} go {i % 512}\n" for i in range(20_000)))
compiled("random")
packets("random", 1_000_000, lambda k: f"{k % 512} {key(k * 7919 % 20_000):08x}0102\n", ["sim"])
write("commits.rmt", [tabled.format("exact", 256)])
write("commits.ent", (f"t {key(i)} go {i % 512}\n" for i in range(200)))
compiled("commits")
# Each commit stands between two packets, and replaces an entry.
packets("commits", 20_000, lambda k: f"- t {key(7)}\n+ t {key(7)} go {k % 512}\ncommit\n0 {key(7):08x}0102\n" if k % 10 == 9
        else f"0 {key(7):08x}0102\n")

# Each commit takes the cell of an entry and gives it another.
write("cells.pkt", (f"- t {key(k % 200)}\n+ t {key(k % 200)} go {k % 512}\ncommit\n0 {key(k % 200):08x}0102\n" for k in range(50_000)))
seconds, peak, lines = printed("sim", "commits.img", "cells.pkt")
cycles = next(int(line.split()[1]) for line in lines if line.startswith("cycles "))
print(f"cells: sim of 50,000 packets with as many commits, of two cells or more each, in {seconds:.2f} s, "
      f"{cycles / seconds:,.0f} cycles a second, {peak:.0f} MiB")

large = "header h { a : 48; b : 48; } next accept;\naction go(p : 9) { out_port = p; }\n" \
    "table first { exact h.a; actions go; size 1000000; default go(0); }\ntable second { exact h.b; actions go; size 1000000; default go(0); }\n" \
    "control { apply first; apply second; }\n"
write("large.rmt", [large])
write("large.ent", (f"{table} {wide(i)} go {i % 512}\n" for table in ("first", "second") for i in range(1_000_000)))
compiled("large")
compiled("large", "large.map")
seconds, peak, lines = printed("verify", "large.rmt", "large.ent", "large.img", "large.map")
print(f"large: verified in {seconds:.2f} s, {peak:.0f} MiB: {lines[0]}")
packets("large", 1_000_000, lambda k: f"{k % 512} {wide(k):012x}{wide(k * 7 % 1_000_000):012x}\n")

# One reading of an image, runs over no line and over one commit of nothing, for which what changes entries is made, and runs with a
# thousand commits of one change each behind it: additions to a table that has room, removals of entries all over one, and both in turn.
write("none.pkt", [])
write("nothing.pkt", ["commit\n"])
seconds, peak = run("sim", "large.img", "none.pkt")
print(f"large: sim of no line in {seconds:.2f} s, {peak:.0f} MiB")
seconds, peak = run("sim", "large.img", "nothing.pkt")
print(f"large: sim of a commit of nothing in {seconds:.2f} s, {peak:.0f} MiB")
write("room.rmt", [large])
write("room.ent", (f"{table} {wide(i)} go {i % 512}\n" for table in ("first", "second") for i in range(999_000)))
compiled("room")
thousand = {
    "additions": ("room", (f"+ first {wide(k)} go 1\ncommit\n" for k in range(999_000, 1_000_000))),
    "removals": ("large", (f"- first {wide(k)}\ncommit\n" for k in range(0, 1_000_000, 1000))),
    "removals and additions": ("large", (f"- first {wide(k)}\ncommit\n+ first {wide(k)} go 1\ncommit\n" for k in range(0, 1_000_000, 2000))),
}
for what, (name, lines) in thousand.items():
    write("changes.pkt", ["commit\n", *lines])
    reading, _ = run("report", f"{name}.img")
    without, _ = run("sim", f"{name}.img", "nothing.pkt")
    seconds, peak = run("sim", f"{name}.img", "changes.pkt")
    print(f"{name}: 1,000 commits of one change each, {what}, in {seconds - without:.2f} s, {peak:.0f} MiB; the image is read in {reading:.2f} s")

write("none.ent", [])
run("compile", "large.rmt", "none.ent", "empty.img")
write("additions.pkt", [f"+ first {wide(i)} go {i % 512}\n" for i in range(1_000_000)] + ["commit\n"])
seconds, peak = run("sim", "empty.img", "additions.pkt")
print(f"large: 1,000,000 additions in one commit in {seconds:.2f} s, {peak:.0f} MiB")

fields = "".join(f"f{k} : 8; " for k in range(60))
metadata = "".join(f"m{k} : 8; " for k in range(128))
setters = "".join(f"action set{k}() {{ meta.m{k} = 1; }}\ntable t{k} {{ exact h.f{k % 60}; actions set{k}; size 256; default set{k}(); }}\n" for k in range(128))
write("wide.rmt", [f"header h {{ {fields}}} next accept;\nmeta {{ {metadata}}}\n", setters, f"control {{ {' '.join(f'apply t{k};' for k in range(128))} }}\n"])
write("wide.ent", [])
compiled("wide")

write("tall.rmt", ["header h { k : 80; } next accept;\naction go(p : 9) { out_port = p; }\n"
    "table t { ternary h.k; actions go; size 1048576; default go(0); }\ncontrol { apply t; }\n"])
write("tall.ent", [])
seconds, peak = run("compile", "tall.rmt", "tall.ent", "tall.img", wanted=6)
print(f"tall: refused in {seconds:.2f} s, {peak:.0f} MiB")


def read(name):
    """Reads an image without its names, and with them: the least of nine runs each, in turn."""
    subprocess.run([f"{top}/bench/unnamed.py", f"{work}/{name}.img", f"{work}/{name}1.img"], check=True)
    runs = [[run("report", f"{image}.img") for image in (f"{name}1", name)] for _ in range(9)]
    without, named = (min(pair[which] for pair in runs) for which in (0, 1))
    for (seconds, peak), what in ((without, "without names"), (named, "with names")):
        print(f"{name}: read {what} in {seconds:.2f} s, {peak:.0f} MiB")
    print(f"{name}: with names {named[0] / without[0]:.2f} times as long")


one = "header h {{ k : {}; }} next accept;\naction go(p : 9) {{ out_port = p; }}\n" \
    "table t {{ {} h.k; actions go; size {}; default go(0); }}\ncontrol {{ apply t; }}\n"
write("million.rmt", [one.format(48, "exact", 1_048_576)])
write("million.ent", (f"t {wide(i)} go {i % 512}\n" for i in range(1_048_576)))
compiled("million")
read("million")

write("rows.rmt", [one.format(32, "ternary", 262_144)])
write("rows.ent", (f"t {i} {key(i)}&{masks[i % 40]} go {i % 512}\n" for i in range(262_144)))
compiled("rows")
read("rows")


# a capture of 16 MiB of frames of 64 bytes, and one of frames of one byte, which the router passes over as too short
for text in "rmt", "ent":
    with open(f"{top}/examples/router.{text}") as f:
        write(f"router.{text}", [f.read()])
compiled("router")
write("none.txt", [])
with open(f"{top}/examples/router.pkt") as f:
    routed = [bytes.fromhex(line.split()[1]) for line in f if line.strip() and not line.startswith("#")]
for size in 64, 1:
    count = (16_777_216 - 24) // (16 + size)
    with open(f"{work}/frames.pcap", "wb") as f:
        f.write(struct.pack("<IHHIIII", 0xa1b2c3d4, 2, 4, 0, 0, 65535, 1))
        for k in range(count):
            f.write(struct.pack("<IIII", k // 1000, k % 1000, size, size) + routed[k % len(routed)].ljust(size, b"\0")[:size])
    for every in "1", "1000":
        seconds, peak = run("switch", "router.img", "none.txt", "frames.pcap", "sent", every)
        print(f"router: switch of {count} frames of {size} bytes, EVERY {every}, in {seconds:.2f} s, {count / seconds:,.0f} a second, {peak:.0f} MiB")
PY
"$top/bench/improve.sh"
"$top/bench/captures.sh"
