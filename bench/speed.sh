#!/usr/bin/env bash
# Builds the program `speed` and the same work over the maps of Rust's standard library, runs both, and prints what
# docs/speed.md has of them. An argument is the number of rounds; of each kind of work the fastest round counts.
set -euo pipefail
cd "$(dirname "$0")/.."
rounds=${1:-50}

# After so many sittings about 1,000, 10,000 and 60,000 nodes are in use.
sizes=(8 58 284)

made=$(mktemp -d)
trap 'rm -rf "$made"' EXIT
if ! (cd crates/speed && rt run) > "$made/build" 2>&1; then
    cat "$made/build" >&2
    exit 1
fi
rustc --edition 2024 -O -C target-cpu=x86-64-v2 bench/std_maps.rs -o "$made/std_maps"

for size in "${sizes[@]}"; do
    crates/speed/out/speed "$size" "$rounds" > "$made/register.$size"
    "$made/std_maps" "$size" "$rounds" > "$made/maps.$size"
done

# The first number after a title in a program's output.
value() {
    grep -P "^$2\t" "$1" | cut -f 2
}

# The picoseconds of one call of a kind of work.
each() {
    local calls nanoseconds
    IFS=$'\t' read -r _ calls nanoseconds < <(grep -P "^$2\t" "$1")
    echo $((nanoseconds * 1000 / calls))
}

# How many times the second number goes into the first: with a digit after the point, and as a fraction below a tenth.
ratio() {
    local tenths=$((($1 * 10 + $2 / 2) / $2))
    if [ "$tenths" -gt 0 ]; then
        printf '%d.%d' $((tenths / 10)) $((tenths % 10))
    else
        printf '1/%d' $(($2 / $1))
    fi
}

for size in "${sizes[@]}"; do
    if [ "$(value "$made/register.$size" answers)" != "$(value "$made/maps.$size" answers)" ]; then
        echo "after $size sittings the two programs answer differently" >&2
        exit 1
    fi
done

# The calls of the register in a second.
calls_a_second() {
    echo $((1000000000000 / $(each "$made/register.$2" "$1")))
}

# The nanoseconds of a call, of both programs, and their ratio.
both() {
    local register maps
    register=$(each "$made/register.$2" "$1")
    maps=$(each "$made/maps.$2" "$1")
    echo "$((register / 1000)) / $((maps / 1000)) = $(ratio "$register" "$maps")"
}

# How many times as long a call of a program takes at the last size as at the first.
growth() {
    ratio "$(each "$made/$1.${sizes[-1]}" "$2")" "$(each "$made/$1.${sizes[0]}" "$2")"
}

# A table with a row for each kind of work: what the function says of it at each size, and how the
# calls of the program grow.
table() {
    local row="| Work |" rule="|---|" size work
    for size in "${sizes[@]}"; do
        row+=" $(value "$made/register.$size" nodes) nodes |"
        rule+="---:|"
    done
    printf '%s\n' "$row growth |" "$rule---:|"
    while read -r work; do
        row="| $work |"
        for size in "${sizes[@]}"; do
            row+=" $("$1" "$work" "$size") |"
        done
        echo "$row $(growth "$2" "$work") |"
    done < "$made/works"
}

cut -f 1 "$made/register.${sizes[0]}" | tail -n +3 > "$made/works"
printf 'Calls of the register in a second:\n\n'
table calls_a_second register
printf '\nNanoseconds of a call, register / maps = ratio:\n\n'
table both maps
