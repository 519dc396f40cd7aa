#!/usr/bin/env bash
# Captures that `./rmt switch` wrote, as `tshark` and `tcpdump` read them (Debian: apt-get install tshark tcpdump): each shows the
# packets that went in, with their times. Captures are made here in both orders of bytes and with both fractions of a second, sent on by
# a program that changes nothing, and each is compared with what the two tools show of the capture that went in.
set -eu
top=$(cd "$(dirname "$0")/.." && pwd)
work=$(mktemp -d)
trap 'rm -rf "$work"' EXIT
for tool in tshark tcpdump; do
    command -v "$tool" >/dev/null || { echo "captures.sh: $tool is wanting" >&2; exit 1; }
done
"$top/rmt" >/dev/null || true # builds the program
python3 - "$top" "$work" <<'PY'
import subprocess, struct, sys
top, work = sys.argv[1:]
program = f"{top}/crates/rmt/out/rmt"

# the first byte of a frame says by its two lowest bits where it goes: to port 0, to port 1, to both, or nowhere
with open(f"{work}/p.rmt", "w") as f:
    f.write("header h { a : 6; b : 2; } next accept;\n"
            "action one() { out_port = 1; }\naction both() { out_port = 256; }\naction none() { drop = 1; }\naction zero() { }\n"
            "table t { exact h.b; actions zero, one, both, none; size 4; default zero(); }\ncontrol { apply t; }\n")
with open(f"{work}/p.ent", "w") as f:
    f.write("t 0 zero\nt 1 one\nt 2 both\nt 3 none\n")
with open(f"{work}/groups", "w") as f:
    f.write("256 0 1\n")
subprocess.run([program, "compile", f"{work}/p.rmt", f"{work}/p.ent", f"{work}/p.img"], check=True, stdout=subprocess.DEVNULL)


def frame(number):
    """An Ethernet frame with an IPv4 packet in it, whose length and bytes are of its number's."""
    size = 1 + number * 37 % 1400
    data = bytes((number + k) % 256 for k in range(size))
    udp = struct.pack(">HHHH", 1000 + number, 53, 8 + size, 0) + data
    ip = struct.pack(">BBHHHBBH4s4s", 0x45, 0, 20 + len(udp), number, 0, 64, 17, 0, bytes([10, 0, 0, 1]), bytes([10, 0, 0, 2]))
    return bytes([number % 4, 1, 2, 3, 4, 5, 8, 7, 6, 5, 4, 3]) + b"\x08\x00" + ip + udp


def capture(name, order, magic, numbers):
    """A capture of these frames, 1.0001 seconds apart."""
    with open(f"{work}/{name}", "wb") as f:
        f.write(struct.pack(order + "IHHIIII", magic, 2, 4, 0, 0, 65535, 1))
        for n in numbers:
            data = frame(n)
            f.write(struct.pack(order + "IIII", 1_700_000_000 + n, 100 * n, len(data), len(data)) + data)


def shown(words):
    result = subprocess.run(words, capture_output=True, text=True)
    if result.returncode:
        sys.exit(f"{words} ended with status {result.returncode}: {result.stderr}")
    return result.stdout


def tools(name):
    """What the two tools show of a capture: times, and all bytes."""
    fields = ["frame.time_epoch", "frame.len", "frame.cap_len", "eth.src", "ip.id", "udp.payload"]
    return (shown(["tshark", "-r", f"{work}/{name}", "-T", "fields", *[w for f in fields for w in ("-e", f)]]),
            shown(["tcpdump", "-r", f"{work}/{name}", "-tt", "-n", "-xx"]))


numbers = range(200)
for order in "<", ">":
    for magic in 0xa1b2c3d4, 0xa1b23c4d:
        capture("in.pcap", order, magic, numbers)
        words = [program, "switch", f"{work}/p.img", f"{work}/groups", f"{work}/in.pcap", f"{work}/out", "1"]
        printed = shown(words)
        if printed != "switch packets 200 skipped 0 out 200 drop 50 queue 0 cells 0\n":
            sys.exit(f"printed was {printed!r}")
        for port in 0, 1:
            capture("wanted.pcap", order, magic, [n for n in numbers if n % 4 in (port, 2)])
            if tools(f"out.{port}.pcap") != tools("wanted.pcap"):
                sys.exit(f"the capture of port {port} shows other packets or times, for {order} {magic:x}")
print("captures.sh: tshark and tcpdump show the packets and times that went in")
PY
