#!/bin/sh
# Prints the least time of each call that crates/bench measures, in ns.
#
#     bench/run.sh WHAT [ROUNDS [BATCHES [RUNS]]]
#
# WHAT is scan, quant, transform, grid, structure, tile or video, or all for one after the other.
# The program is run RUNS times, and each time it takes a batch of ROUNDS rounds through one call
# after the other, BATCHES times. The time is a round's part of the least time of them all. Where the
# program names the bytes of a round, the speed in GB/s follows.
set -e
cd "$(dirname "$0")/../crates/bench"
what=$1
case $what in
    scan) set -- "${2:-2000}" "${3:-50}" "${4:-10}" ;;
    quant) set -- "${2:-20000}" "${3:-20}" "${4:-10}" ;;
    transform) set -- "${2:-2000}" "${3:-300}" "${4:-10}" ;;
    grid) set -- "${2:-2}" "${3:-10}" "${4:-5}" ;;
    structure) set -- "${2:-200}" "${3:-30}" "${4:-10}" ;;
    tile) set -- "${2:-1024}" "${3:-50}" "${4:-10}" ;;
    video) set -- "${2:-8}" "${3:-5}" "${4:-5}" ;;
    all)
        shift
        for part in scan quant transform grid structure tile video; do
            ../../bench/run.sh "$part" "$@"
        done
        exit
        ;;
    *)
        echo "usage: bench/run.sh scan|quant|transform|grid|structure|tile|video|all" \
            "[ROUNDS [BATCHES [RUNS]]]" >&2
        exit 2
        ;;
esac
if ! rt run -- "$what" 1 >/dev/null 2>&1; then
    echo "bench/run.sh: crates/bench isn't built; rt check says why" >&2
    exit 1
fi
for _ in $(seq "$3"); do
    out/bench "$what" "$1" "$2"
done | awk -F ': checksum [0-9]+, ' '
    NF == 1 { heading = $0; next }
    {
        call = heading SUBSEP $1
        time = $2 + 0
        if (!(call in least)) { calls[++count] = call; least[call] = time }
        if (time < least[call]) least[call] = time
        unit[call] = $2
        sub(/^[0-9.]+ /, "", unit[call])
    }
    END {
        for (i = 1; i <= count; i++) {
            split(calls[i], part, SUBSEP)
            if (part[1] != heading_before) print part[1]
            heading_before = part[1]
            printf "%s: %.1f %s", part[2], least[calls[i]], unit[calls[i]]
            if (match(unit[calls[i]], /[0-9]+ bytes$/))
                printf ", %.2f GB/s", substr(unit[calls[i]], RSTART) / least[calls[i]]
            printf "\n"
        }
    }'
