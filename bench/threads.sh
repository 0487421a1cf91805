#!/usr/bin/env bash
# What threads bring: the same observation by `correlate --serial` and by `correlate` with 0, 1, 2 and 4 workers, at a
# load that multiplies (64 antennas, 4 channels), at one that does both (16 antennas, 64 channels) and at one that only
# receives (4 antennas whose heaps are all put together and none used, since they are another antenna's). For each the
# least seconds of some runs, how many times as fast as one worker that is, the greatest memory, and what the plan
# reserves. All outputs are equal.
# Usage: bench/threads.sh [PROGRAM [RUNS]]
set -euo pipefail

source -- "${BASH_SOURCE[0]%/*}/common.sh" "${1:-}"
runs=${2:-3}

window=8
lag=2
slots=8

# The output is made anew for each run, in memory where there is a folder for that: a disk that is slow to take or to
# close it would count as time in which no thread works.
output=$folder/out.cap
if [ -w /dev/shm ]; then
    output=$(mktemp -p /dev/shm)
fi
trap 'rm -rf -- "$folder" "$output"' EXIT

# Writes the settings for this number of workers.
write_settings() {
    local antenna inputs=
    for ((antenna = 0; antenna < antennas; antenna++)); do
        inputs+="\"$folder/$antenna.cap\", "
    done
    cat >"$folder/settings.toml" <<TOML
antennas = $antennas
channels = $channels
spectra = $spectra
heaps = $heaps
accumulations = $accumulations
step = 1
window = $window
lag = $lag
slots = $slots
workers = $1
preset = true
inputs = [${inputs%, }]
output = "$output"
TOML
}

# The least seconds of some runs, the greatest KiB, and the KiB that are reserved, after the name: `serial`, or the
# number of workers.
measure() {
    local name=$1 flags=() run least= most=0 bytes value
    if [ "$name" = serial ]; then
        write_settings 0
        flags=(--serial)
        read -r bytes value < <(reserved 0)
    else
        write_settings "$name"
        read -r bytes value < <(reserved "$name")
    fi
    for ((run = 0; run < runs; run++)); do
        rm -f "$output"
        /usr/bin/time -o "$folder/time" -f '%e %M' "$program" correlate "${flags[@]}" "$folder/settings.toml" >"$folder/text"
        read -r seconds kib <"$folder/time"
        least=$(awk -v least="$least" -v t="$seconds" 'BEGIN { print (least == "" || t < least) ? t : least }')
        most=$((kib > most ? kib : most))
    done
    cmp -s "$output" "$folder/first.cap" 2>/dev/null || [ ! -e "$folder/first.cap" ] || {
        echo "bench: another output with $name" >&2
        return 1
    }
    [ -e "$folder/first.cap" ] || cp "$output" "$folder/first.cap"
    echo "$name $least $most $((bytes / 1024))"
}

# One load, by its name: makes the captures, with the second word of heaps of other antennas, and measures each way.
bench() {
    rm -f "$folder"/*.cap
    write_captures "" "$antennas" "$((4 * channels * spectra))" "$((heaps * accumulations))" "${2:-0}"
    echo "$1: $antennas antennas, $channels channels, $spectra spectra, $heaps heaps, $accumulations accumulations"
    local way
    for way in serial 0 1 2 4; do
        measure "$way"
    done | awk '
        { name[NR] = $1; seconds[NR] = $2 > 0.01 ? $2 : 0.01; kib[NR] = $3; reserved[NR] = $4 }
        $1 == "1" { one = seconds[NR] }
        END { for (i = 1; i <= NR; i++)
                  printf "  %-9s %7.2f s, %5.2f times as fast as one worker, %7d KiB at most, %7d KiB reserved\n",
                      name[i] == "serial" ? "--serial" : "workers " name[i], seconds[i], one / seconds[i], kib[i],
                      reserved[i] }'
}

antennas=64 channels=4 spectra=256 heaps=16 accumulations=192
bench multiply
antennas=16 channels=64 spectra=64 heaps=64 accumulations=16
bench both
antennas=4 channels=1 spectra=256 heaps=64 accumulations=768
bench receive 64
