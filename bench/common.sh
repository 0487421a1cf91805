# What every bench begins with: the program to measure, built where it has to be, and a folder that goes at the end;
# and the captures that several benches read. Sourced by the benches, with their first word.

top=$(cd -- "$(dirname -- "${BASH_SOURCE[0]}")/.." && pwd)
program=$(readlink -f -- "${1:-"$top/spead_corr"}")
folder=$(mktemp -d)
trap 'rm -rf -- "$folder"' EXIT

# Without words it prints its usage and changes nothing. The wrapper looks at all sources before it starts, which is
# not measured.
"$program" >/dev/null 2>&1 || true
if [ "$program" = "$top/spead_corr" ]; then
    program=$top/crates/spead_corr/out/spead_corr
fi

# The bytes that a plan with so many workers reserves, as the formats write them out, and those of the payload of a
# visibility heap. The plan's other fields are the variables of these names.
reserved() {
    local heap=$((4 * channels * spectra)) baselines=$((antennas * (antennas + 1) / 2)) works=$(($1 > 1 ? $1 : 1))
    local limit=$((heap + 4096)) column=$((heaps * (heap + 1))) value=$((64 * channels * baselines + 4 * baselines))
    local stream=$((window * (limit + (limit + 7) / 8) + (lag + 2) * column)) result=$((antennas * column + value))
    echo $((antennas * stream + (slots + works) * result + value)) "$value"
}

# Writes the captures of all antennas, each by this name and its number: at each timestamp a heap of one packet, with
# samples that differ from heap to heap and between antennas.
# Usage: write_captures NAME ANTENNAS BYTES TIMESTAMPS [FURTHER], the bytes of a heap's samples; with FURTHER each heap
# says an antenna so much further on, and so is none of its own stream
write_captures() {
    python3 - "$folder/$1" "$2" "$3" "$4" "${5:-0}" <<'PYTHON'
import random
import struct
import sys

name, antennas, size, timestamps, further = sys.argv[1], *map(int, sys.argv[2:])
noise = random.Random(1).randbytes(size + 4096)
for antenna in range(antennas):
    with open(f"{name}{antenna}.cap", "wb") as capture:
        capture.write(b"SPCAPT01")
        for t in range(timestamps):
            words = (0x5304020600000007, 0x8001 << 48 | t + 1, 0x8002 << 48 | size, 0x8003 << 48,
                     0x8004 << 48 | size, 0x9600 << 48 | t, 0xC101 << 48 | antenna + further, 0x4300 << 48)
            start = (t * (antenna + 7)) % 4096
            capture.write(struct.pack(">I8Q", 64 + size, *words) + noise[start:start + size])
PYTHON
}
