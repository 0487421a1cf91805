#!/usr/bin/env bash
# What it costs to receive: the processor time of `plain` over one capture whose heaps are all put together and none
# used, since they are another antenna's, beside that of a C program that does the same for well-formed streams
# (receive.c), which reads the file by blocks of 64 KiB or maps it. 128 MiB of samples three times: in heaps of one
# packet of 1 KiB, in heaps of 64 such packets in order, and the same with the packets of each heap shuffled. Runs of
# all three programs alternate; prints the median of each and the ratios of ours to C's.
# Usage: bench/receive.sh [PROGRAM]
set -euo pipefail

source -- "${BASH_SOURCE[0]%/*}/common.sh" "${1:-}"

packets=131072
pieces=64
payload=1024
runs=25

# Writes the three captures. Each packet says counter, size, offset and length; timestamp, antenna 1 and voltages stand
# in the packet at offset 0.
make_captures() {
    python3 - "$folder" "$packets" "$pieces" "$payload" <<'PYTHON'
import random
import struct
import sys

folder, packets, pieces, payload = sys.argv[1], *map(int, sys.argv[2:])
order = random.Random(3)
noise = order.randbytes(payload + 4096)


def record(t, size, offset):
    words = [0x8001 << 48 | t + 1, 0x8002 << 48 | size, 0x8003 << 48 | offset, 0x8004 << 48 | payload]
    if offset == 0:
        words += [0x9600 << 48 | t, 0xC101 << 48 | 1, 0x4300 << 48]
    start = (7 * t + offset) % 4096
    packet = struct.pack(f">{len(words) + 1}Q", 0x5304020600000000 | len(words), *words) + noise[start:start + payload]
    return struct.pack(">I", len(packet)) + packet


names = ("single", "ordered", "shuffled")
captures = {name: open(f"{folder}/{name}.cap", "wb") for name in names}
for capture in captures.values():
    capture.write(b"SPCAPT01")
for t in range(packets):
    captures["single"].write(record(t, payload, 0))
for t in range(packets // pieces):
    cut = [record(t, payload * pieces, payload * piece) for piece in range(pieces)]
    captures["ordered"].write(b"".join(cut))
    order.shuffle(cut)
    captures["shuffled"].write(b"".join(cut))
PYTHON
}

# Runs a command once, adds its processor time in seconds, user and system, to the file, and wants this of it.
time_once() {
    local times=$1 wanted=$2 text
    shift 2
    local TIMEFORMAT='%3U %3S'
    { time text=$("$@") 2>/dev/null; } 2>"$folder/time"
    if [ "$text" != "$wanted" ]; then
        echo "bench: $1 printed: $text" >&2
        return 1
    fi
    awk '{ printf "%.3f\n", $1 + $2 }' "$folder/time" >>"$times"
}

# The median of the numbers in a file.
median() {
    sort -n "$1" | sed -n "$(((runs + 1) / 2))p"
}

# One load: its capture's name, its channels and its heaps. A heap of one packet has as many spectra as one channel
# of 1 KiB, and one of 64 packets has 64 channels of as many.
measure() {
    local name=$1 channels=$2 heaps=$3 spectra=$((payload / 4)) run
    local capture=$folder/$name.cap sent=$((2 + (64 * channels + 4 + 1023) / 1024))
    for ((run = 0; run < runs; run++)); do
        time_once "$folder/$name.ours" "sent $sent packets" \
            "$program" plain 1 "$channels" "$spectra" 1 1 "$capture" "$folder/out.cap"
        time_once "$folder/$name.read" "$heaps whole, 0 used" \
            "$folder/receive" read "$channels" "$spectra" 0 "$capture"
        time_once "$folder/$name.map" "$heaps whole, 0 used" \
            "$folder/receive" map "$channels" "$spectra" 0 "$capture"
    done
    awk -v name="$name" -v ours="$(median "$folder/$name.ours")" -v c="$(median "$folder/$name.read")" \
        -v mapped="$(median "$folder/$name.map")" \
        'BEGIN { printf "%-8s ours %.3f s, C that reads %.3f s: %.2f times, C that maps %.3f s: %.2f times\n",
                     name, ours, c, ours / c, mapped, ours / mapped }'
}

cc -O3 -o "$folder/receive" "$top/bench/receive.c"
make_captures
measure single 1 "$packets"
measure ordered "$pieces" "$((packets / pieces))"
measure shuffled "$pieces" "$((packets / pieces))"
