#!/usr/bin/env bash
# How fast `plain` multiplies: complex multiply-accumulates a second at 16 antennas and 64 channels, beside a C program
# that does the same work with a plain loop, compiled with `cc -O2` and with `cc -O3`. Both read the same
# captures, of heaps of one packet, and write the sums of all baselines. All times are processor times, the least of
# some runs. What reading alone costs is measured with heaps of another antenna, which are read and not used, and is
# taken off for the kernel.
# Usage: bench/kernel.sh [PROGRAM [SPECTRA [RUNS]]]
set -euo pipefail

source -- "${BASH_SOURCE[0]%/*}/common.sh" "${1:-}"
spectra=${2:-64}
runs=${3:-3}

antennas=16
channels=64
heaps=64
# As many accumulations as make 256 spectra.
accumulations=$((256 / spectra > 0 ? 256 / spectra : 1))

# Writes two captures of each antenna: one whose heaps say that antenna, and one whose heaps say another.
make_captures() {
    local size=$((4 * channels * spectra)) timestamps=$((heaps * accumulations))
    write_captures used "$antennas" "$size" "$timestamps"
    write_captures read "$antennas" "$size" "$timestamps" 1
}

# The C program: its words are antennas, channels, spectra, heaps and accumulations, then the inputs and the output.
# A heap that says another antenna is read and not used. It tests nothing else.
write_c() {
    cat >"$folder/plain.c" <<'C'
#include <stdint.h>
#include <stdio.h>
#include <stdlib.h>
#include <string.h>

// The four products of two rows of samples, summed over the spectra, and added to eight sums.
static void add_row(const int8_t *x, const int8_t *y, int spectra, int64_t *sums)
{
    int32_t s[8] = {0};
    for (int k = 0; k < spectra; k++) {
        int32_t a = x[4 * k], b = x[4 * k + 1], c = x[4 * k + 2], d = x[4 * k + 3];
        int32_t e = y[4 * k], f = y[4 * k + 1], g = y[4 * k + 2], h = y[4 * k + 3];
        s[0] += a * e + b * f;
        s[1] += b * e - a * f;
        s[2] += a * g + b * h;
        s[3] += b * g - a * h;
        s[4] += c * e + d * f;
        s[5] += d * e - c * f;
        s[6] += c * g + d * h;
        s[7] += d * g - c * h;
    }
    for (int k = 0; k < 8; k++)
        sums[k] += s[k];
}

int main(int count, char **words)
{
    int antennas = atoi(words[1]), channels = atoi(words[2]), spectra = atoi(words[3]);
    int heaps = atoi(words[4]), accumulations = atoi(words[5]);
    size_t size = (size_t)4 * channels * spectra, numbers = (size_t)8 * channels;
    int baselines = antennas * (antennas + 1) / 2;
    int8_t *cells = malloc(antennas * heaps * size);
    char *present = malloc(antennas * heaps);
    int64_t *sums = malloc(baselines * numbers * 8);
    unsigned char *bytes = malloc(baselines * numbers * 8);
    FILE *inputs[64], *output = fopen(words[count - 1], "wb");
    for (int a = 0; a < antennas; a++) {
        char magic[8];
        inputs[a] = fopen(words[6 + a], "rb");
        if (!inputs[a] || fread(magic, 1, 8, inputs[a]) != 8)
            return 1;
    }
    for (int n = 0; n < accumulations; n++) {
        for (int a = 0; a < antennas; a++)
            for (int t = 0; t < heaps; t++) {
                unsigned char head[68];
                if (fread(head, 1, 68, inputs[a]) != 68 || fread(cells + (a * heaps + t) * size, 1, size, inputs[a]) != size)
                    return 1;
                present[a * heaps + t] = head[59] == a;
            }
        memset(sums, 0, baselines * numbers * 8);
        int64_t *sum = sums;
        for (int j = 0; j < antennas; j++)
            for (int i = 0; i <= j; i++, sum += numbers)
                for (int t = 0; t < heaps; t++) {
                    if (!present[i * heaps + t] || !present[j * heaps + t])
                        continue;
                    const int8_t *x = cells + (i * heaps + t) * size, *y = cells + (j * heaps + t) * size;
                    for (int c = 0; c < channels; c++)
                        add_row(x + (size_t)4 * spectra * c, y + (size_t)4 * spectra * c, spectra, sum + 8 * c);
                }
        size_t at = 0;
        for (int c = 0; c < channels; c++)
            for (int b = 0; b < baselines; b++)
                for (int k = 0; k < 8; k++)
                    for (int shift = 56; shift >= 0; shift -= 8)
                        bytes[at++] = (uint64_t)sums[b * numbers + 8 * c + k] >> shift;
        fwrite(bytes, 1, at, output);
    }
    return fclose(output);
}
C
}

# The least processor time, in seconds, of some runs of a program over the captures of this name.
seconds() {
    local name=$1 run antenna inputs=() least=
    shift
    for ((antenna = 0; antenna < antennas; antenna++)); do
        inputs+=("$folder/$name$antenna.cap")
    done
    for ((run = 0; run < runs; run++)); do
        /usr/bin/time -o "$folder/time" -f '%U %S' \
            "$@" "$antennas" "$channels" "$spectra" "$heaps" "$accumulations" "${inputs[@]}" "$folder/out.cap" >/dev/null
        least=$(awk -v least="$least" '{ t = $1 + $2; print (least == "" || t < least) ? t : least }' "$folder/time")
    done
    echo "$least"
}

make_captures
write_c
cc -O2 -o "$folder/at2" "$folder/plain.c"
cc -O3 -o "$folder/at3" "$folder/plain.c"

baselines=$((antennas * (antennas + 1) / 2))
products=$((4 * baselines * channels * spectra * heaps * accumulations))
echo "$antennas antennas, $channels channels, $spectra spectra, $heaps heaps, $accumulations accumulations:" \
    "$products complex multiply-accumulates"
for form in "plain:$program plain" "cc-O2:$folder/at2" "cc-O3:$folder/at3"; do
    read -ra command <<<"${form#*:}"
    echo "${form%%:*} $(seconds used "${command[@]}") $(seconds read "${command[@]}")"
done | awk -v products="$products" '
    { whole[$1] = $2; kernel[$1] = $2 - $3 > 0.01 ? $2 - $3 : 0.01
      printf "%-6s %6.2f s in all, %6.2f s to read, kernel %7.0f million complex multiply-accumulates a second\n",
          $1, $2, $3, products / kernel[$1] / 1000000 }
    END { for (form in whole) if (form != "plain")
              printf "plain to %s: kernel %.2f times as fast, in all %.2f times the processor time\n",
                  form, kernel[form] / kernel["plain"], whole["plain"] / whole[form] }'
