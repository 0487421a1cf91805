#!/usr/bin/env bash
# How much memory `trial` takes for 64 simulated antennas, on one thread and in threads, beside the bytes that its plan
# reserves, and how long it takes. Fails where it takes more than a tenth above that and the payload of one visibility
# heap and 16 MiB: what is not reserved are that payload, the program itself, and the stack and the line of each thread.
# Usage: bench/trial.sh [PROGRAM]
set -euo pipefail

source -- "${BASH_SOURCE[0]%/*}/common.sh" "${1:-}"

antennas=64
channels=64
spectra=16
heaps=16
accumulations=4
window=8
lag=1
slots=2

# The settings of all antennas.
write_settings() {
    local antenna inputs=()
    for ((antenna = 0; antenna < antennas; antenna++)); do inputs+=("\"$antenna\""); done
    cat >"$folder/trial.toml" <<SETTINGS
antennas = $antennas
channels = $channels
spectra = $spectra
heaps = $heaps
step = 8192
accumulations = $accumulations
lag = $lag
window = $window
slots = $slots
workers = 1
inputs = [$(IFS=,; echo "${inputs[*]}")]
output = "$folder/out.cap"
SETTINGS
}

# Measures a trial with these flags, against at most so many bytes.
measure() {
    local most=$1 text
    shift
    text=$(/usr/bin/time -o "$folder/time" -f '%e %M' "$program" trial "$@" "$folder/trial.toml" 7)
    if [ "$(grep -c 'ended stop' <<<"$text")" != "$antennas" ]; then
        echo "bench: the program printed: $text" >&2
        return 1
    fi
    head -n 1 <<<"$text"
    awk -v most="$most" -v reserved="$bytes" -v way="${1:-in threads}" \
        '{ printf "64 antennas %s: %.2f s, %d KiB at most, %d KiB reserved\n", way, $1, $2, reserved / 1024
           exit $2 * 1024 > most }' "$folder/time"
}

write_settings
read -r bytes value < <(reserved 1)
most=$((bytes + bytes / 10 + value + 16777216))
measure "$most" --serial
measure "$most"
