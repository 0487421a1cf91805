#!/usr/bin/env bash
# How fast `plain` reads capture files, and how its memory grows: five antennas, one channel, heaps of one packet with
# 256 spectra, about 256 MiB in all, and before that the first quarter of each file.
# Usage: bench/plain.sh [PROGRAM]
set -euo pipefail

source -- "${BASH_SOURCE[0]%/*}/common.sh" "${1:-}"

antennas=5
spectra=256
heaps=64
accumulations=768
# A record: its length, a packet of eight words, four bytes of samples a spectrum.
record=$((4 + 64 + 4 * spectra))

# The first quarter of each capture: the records of a quarter of the accumulations.
cut_captures() {
    local antenna
    for ((antenna = 0; antenna < antennas; antenna++)); do
        head -c $((8 + record * heaps * accumulations / 4)) "$folder/whole$antenna.cap" >"$folder/quarter$antenna.cap"
    done
}

# Runs the program over the captures of this name with so many accumulations, prints the rates, and leaves the
# seconds and the peak memory in KiB in `measured`.
measure() {
    local name=$1 accumulations=$2 antenna inputs=() text
    for ((antenna = 0; antenna < antennas; antenna++)); do
        inputs+=("$folder/$name$antenna.cap")
    done
    text=$(/usr/bin/time -o "$folder/time" -f '%e %M' \
        "$program" plain "$antennas" 1 "$spectra" "$heaps" "$accumulations" "${inputs[@]}" "$folder/out.cap")
    if [ "$text" != "sent $((accumulations + 2)) packets" ]; then
        echo "bench: the program printed: $text" >&2
        return 1
    fi
    measured=$(tail -n 1 "$folder/time")
    local datagrams=$((antennas * heaps * accumulations))
    awk -v name="$name" -v datagrams="$datagrams" -v bytes="$((datagrams * (record - 4)))" \
        '{ seconds = $1 > 0.01 ? $1 : 0.01
           printf "%-8s %8d datagrams %10d bytes %8.2f s %10.0f datagrams/s %12.0f bytes/s %8d KiB at most\n",
               name, datagrams, bytes, $1, datagrams / seconds, bytes / seconds, $2 }' <<<"$measured"
}

write_captures whole "$antennas" "$((4 * spectra))" "$((heaps * accumulations))"
cut_captures
measure quarter $((accumulations / 4))
quarter=$measured
measure whole "$accumulations"
awk '{ printf "growth from a quarter to the whole: time %.2f times, memory %.2f times\n", $3 / ($1 > 0.01 ? $1 : 0.01), $4 / $2 }' \
    <<<"$quarter $measured"
