#!/bin/sh
# Decodes the same .wv files with the library and with libwavpack, in turns, and prints two tables:
#     run.sh [ROUNDS [TIMES]]
# Each round starts each program once; a program decodes TIMES times, and the best time of all rounds counts.
#
# The files go to the folder that BENCH_FOLDER names, or to target/bench; recordings that are there are not
# made again. The library is libwavpack_stereo.a of the folder that WAVPACK_STEREO_FOLDER names, or of
# target/staticlib.
set -eu
LC_ALL=C
export LC_ALL
root=$(cd "$(dirname "$0")/.." && pwd)
rounds=${1:-8}
times=${2:-5}
work=${BENCH_FOLDER:-$root/target/bench}
library=${WAVPACK_STEREO_FOLDER:-$root/target/staticlib}/libwavpack_stereo.a

fail() {
    echo "run.sh: $1" >&2
    exit 1
}

# What is made has another name until it is whole, so that nothing half made is found by the next run.
record() { # NAME SEED
    if [ ! -e "$work/$1.wav" ]; then
        python3 "$root/bench/recording.py" "$work/part.wav" "$2"
        mv "$work/part.wav" "$work/$1.wav"
    fi
    for mode in -f '' -h -hh; do
        if [ ! -e "$work/$1$mode.wv" ]; then
            wavpack -q -y -j0 ${mode:+"$mode"} "$work/$1.wav" -o "$work/part.wv"
            mv "$work/part.wv" "$work/$1$mode.wv"
        fi
    done
}

build() { # PROGRAM SOURCE... LIBRARY
    program=$1
    shift
    "${CC:-cc}" -std=c11 -O2 -Wall -Wextra -Werror -D_POSIX_C_SOURCE=200809L -pthread -I"$root/include" \
        -I"$root/examples/c" "$root/bench/$program.c" "$root/bench/turns.c" "$@" -o "$work/$program"
}

# Prints what the programs print, after `ours` or `theirs`. Both must have decoded the same samples.
take_turns() { # FILE...
    round=0
    while [ "$round" -lt "$rounds" ]; do
        ours=$("$work/ours" "$times" "$@")
        theirs=$("$work/theirs" "$times" "$@")
        [ "${ours%% *}" = "${theirs%% *}" ] || fail "other samples: $ours, $theirs of $*"
        printf 'ours %s\ntheirs %s\n' "$ours" "$theirs"
        round=$((round + 1))
    done
}

for number in "$rounds" "$times"; do
    case $number in
    '' | 0* | *[!0-9]*) fail "$number is no number of rounds or times" ;;
    esac
done
[ -e "$library" ] || fail "no $library"
mkdir -p "$work"
record recording 1
record second 2
build ours "$root/examples/c/wv_block.c" "$root/examples/c/wv_samples.c" "$library"
build theirs -lwavpack

echo '| mode | passes | size, % of the WAV file | ours, ms | libwavpack, ms | times as fast |'
echo '|---|---:|---:|---:|---:|---:|'
for mode in -f '' -h -hh; do
    packed=$(wc -c <"$work/recording$mode.wv")
    whole=$(wc -c <"$work/recording.wav")
    take_turns "$work/recording$mode.wv" >"$work/turns.txt"
    awk -v mode="${mode:-default}" -v packed="$packed" -v whole="$whole" '
        !($1 in best) || $4 < best[$1] { best[$1] = $4 }
        $1 == "ours" { passes = $3 }
        END {
            printf "| %s | %d | %.1f | %.1f | %.1f | %.2f |\n", mode, passes, 100 * packed / whole,
                best["ours"], best["theirs"], best["theirs"] / best["ours"]
        }' "$work/turns.txt"
done

echo
echo '| mode, two recordings | decoder | one thread, ms | two threads, ms | times as fast |'
echo '|---|---|---:|---:|---:|'
for mode in '' -h; do
    take_turns "$work/recording$mode.wv" "$work/second$mode.wv" >"$work/turns.txt"
    awk -v mode="${mode:-default}" '
        !($1 in one) || $4 < one[$1] { one[$1] = $4 }
        !($1 in two) || $5 < two[$1] { two[$1] = $5 }
        function row(name, side) {
            printf "| %s | %s | %.1f | %.1f | %.2f |\n", mode, name, one[side], two[side],
                one[side] / two[side]
        }
        END {
            row("ours", "ours")
            row("libwavpack", "theirs")
        }' "$work/turns.txt"
done
