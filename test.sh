#!/bin/sh
# Runs every test: crates.txt and docs/PROVED.md against what they name, the wording of the refusals, the
# layout of the files, the proofs, edits and programs, the C programs and the Rust bindings over the proved
# library, and the comparison with the published Rust. The last line is that of `rt ci` when all pass.
#
# The published Rust is looked for in ../shared/docs/src/src, or in the folder that WAVPACK_REFERENCE names.
# Where it is missing the comparison is skipped with a message; with CI=true a missing reference is a failure.
set -u
cd "$(dirname "$0")" || exit 2

fail() {
    echo "test.sh: FAILED: $1"
    exit 1
}

# What takes seconds comes first.
docs/crates.sh || fail 'crates.txt'
docs/carriers.sh || fail 'docs/PROVED.md'
docs/refusals.sh || fail 'the wording of the refusals'
cargo fmt --check --manifest-path bindings/rust/Cargo.toml || fail 'the layout of the bindings'
cargo fmt --all --check --manifest-path compare/Cargo.toml || fail 'the layout of the comparison'

# The layout of the Rattle files is held by `rt ci` too. An edit that does not fit the text it changes fails
# nothing there: the line `rt: ok` counts it as bad.
log=$(mktemp) || exit 2
trap 'rm -f "$log"' EXIT
{ rt ci 2>&1 || echo 'rt ci FAILED'; } | tee "$log"
verdict=$(tail -n 1 "$log")
case $verdict in
*' passed, 0 failed') ;;
*) fail 'rt ci' ;;
esac
grep -q '^rt: ok' "$log" || fail 'rt ci, which does not say that all is well'
! grep -qE '^rt: ok.*, [1-9][0-9]* bad' "$log" || fail 'must-fail edits that are bad'

tools/staticlib || fail 'the library that C links'

build() { # PROGRAM SOURCE...
    program=$1
    shift
    "${CC:-cc}" -std=c11 -O2 -Wall -Wextra -Werror -Iinclude "$@" target/staticlib/libwavpack_stereo.a \
        -o "target/$program" || fail "the C program $program does not build"
}
refused() { # WORD...: a command that must have the exit status 1
    "$@" >target/refused.txt 2>&1
    [ $? -eq 1 ] || fail "$* does not have the exit status 1"
}

build ctest ctest/answers.c ctest/archives.c ctest/cuts.c ctest/joined.c ctest/pages.c ctest/reach.c \
    ctest/totals.c ctest/waves.c ctest/wide.c
target/ctest || fail 'the C program'
build refusal_texts ctest/refusal_texts.c
target/refusal_texts >target/refusal_texts.txt || fail 'the texts of the refusals in C'
sed -n 's/^\([1-9][0-9]*\) [A-Z0-9_]* /\1 /p' include/refusals.txt | diff - target/refusal_texts.txt ||
    fail 'the texts of the refusals in C'

# A frame, four frames, these with a sample of 32,768 among them, and these without their end.
frames='\0\25\0\25\0\25\0\25\0\25\0\25\4\0\6\0\0\0\4\20\360\17\350\176\310\375'
{
    printf '\0\1\0\1\0\1\0\1\0\1\0\1\1\0\176\2' >target/pair.bin
    printf "$frames"'\120\0\0\4\236\0' >target/stem.bin
    printf "$frames"'\60\0\0\4\236\0' >target/loud.bin
    printf "$frames" >target/cut.bin
} || fail 'no files for the examples'

wv=bindings/rust/tests/data
build decode examples/c/decode.c
{ target/decode target/pair.bin && target/decode target/stem.bin && ! target/decode target/cut.bin; } 2>&1 |
    diff examples/c/decode.txt - || fail 'the example decode in C'
build wv_file examples/c/wv_file.c examples/c/wv_block.c examples/c/wv_samples.c
target/wv_file "$wv"/*.wv | diff bindings/rust/examples/wv_file.txt - || fail 'real files in C'
target/wv_file "$wv/plain.wv" "$wv/joint.wv" >target/wv_file.txt || fail 'two whole files in C'
for words in '' target/none.wv target/pair.bin "$wv/mono.wv"; do
    refused target/wv_file $words
done
for words in '' target/none.bin examples/c; do
    refused target/decode $words
done

cargo test --quiet --offline --locked --manifest-path bindings/rust/Cargo.toml || fail 'the Rust bindings'
cargo clippy --quiet --offline --locked --all-targets --all-features \
    --manifest-path bindings/rust/Cargo.toml -- -D warnings || fail 'clippy of the bindings'

example() { # NAME WORD...
    name=$1
    shift
    cargo run --quiet --offline --locked --manifest-path bindings/rust/Cargo.toml --example "$name" -- "$@"
}
{ example clicks && example clicks target/pair.bin 2; } | diff bindings/rust/examples/clicks.txt - ||
    fail 'the example clicks'
example wv_file "$wv"/*.wv | diff bindings/rust/examples/wv_file.txt - || fail 'real files in Rust'
example wv_file "$wv/plain.wv" "$wv/joint.wv" >target/wv_file.txt || fail 'two whole files in Rust'
for words in '' target/none.wv target/pair.bin "$wv/mono.wv"; do
    refused example wv_file $words
done
{
    example stem_bits target/pair.bin target/stem.bin "$wv/plain.wv" "$wv/joint.wv" "$wv/silent_right.wv" &&
        ! example stem_bits target/cut.bin "$wv/flipped.wv"
} | diff bindings/rust/examples/stem_bits.txt - || fail 'the example stem_bits'
for words in '' target/none.wv target/cut.bin "$wv/mono.wv"; do
    refused example stem_bits $words
done

rm -f target/python.wav target/sox.wav target/none.wav
{
    example sound_file target/stem.bin 44100 target/python.wav &&
        example sound_file target/stem.bin 48000 target/sox.wav &&
        ! example sound_file target/loud.bin 44100 target/none.wav &&
        ! example sound_file target/loud.bin 192001 target/none.wav &&
        ! example sound_file target/cut.bin 44100 target/none.wav
} 2>&1 | diff bindings/rust/examples/sound_file.txt - || fail 'sound files'
[ ! -e target/none.wav ] || fail 'a sound file of a recording that is not exported'
cmp target/python.wav "$wv/wave/python.wav" || fail 'a sound file as Python writes it'
cmp target/sox.wav "$wv/wave/sox.wav" || fail 'a sound file as sox writes it'

# An archive, and copies of it: a byte altered, cut inside a block and after a block of a recording, and
# without its first two blocks.
rm -f target/*.archive target/taken.bin target/none.bin
{
    stems=target/stems.archive
    example archive $stems add 3 86400 0 target/pair.bin &&
        example archive $stems add 4 86400 0 "$wv/plain.wv" &&
        example archive $stems list &&
        example archive $stems add 3 86400 2 target/stem.bin &&
        example archive $stems add 3 86400 1 target/loud.bin &&
        example archive $stems list &&
        example archive $stems take 3 86400 target/taken.bin &&
        ! example archive $stems add 3 86400 0 target/loud.bin &&
        ! example archive $stems add 65536 86400 0 target/pair.bin &&
        ! example archive $stems take 5 86400 target/none.bin &&
        cp $stems target/altered.archive &&
        printf '\377' | dd of=target/altered.archive bs=1 seek=1000 conv=notrunc 2>/dev/null &&
        head -c 2100 $stems >target/cut.archive &&
        head -c 2048 $stems >target/unfinished.archive &&
        tail -c +1025 $stems >target/headless.archive
    for copy in altered cut unfinished headless; do
        ! example archive target/$copy.archive list || echo "$copy is listed"
    done
    ! example archive target/cut.archive add 9 86400 0 target/pair.bin
} 2>&1 | diff bindings/rust/examples/archive.txt - || fail 'the example archive'
cmp target/taken.bin target/stem.bin || fail 'a recording out of an archive'
[ ! -e target/none.bin ] || fail 'a recording that is not in an archive'
for words in '' 'target/stems.archive' 'target/none.archive list' 'target/cut.archive list' \
    'target/stems.archive add 3 86400 0 target/pair.bin' 'target/cut.archive take 3 86400 target/none.bin'; do
    refused example archive $words
done

reference=${WAVPACK_REFERENCE:-../shared/docs/src/src}
if [ -d "$reference" ]; then
    WAVPACK_REFERENCE=$(cd "$reference" && pwd)
    export WAVPACK_REFERENCE
    cargo clippy --quiet --offline --locked --all-targets --manifest-path compare/Cargo.toml -- -D warnings ||
        fail 'clippy of the comparison'
    cargo run --quiet --offline --locked --profile checked --manifest-path compare/Cargo.toml ||
        fail 'the comparison with the published Rust'
elif [ "${CI:-}" = true ]; then
    fail "no published Rust at $reference"
else
    echo "test.sh: no published Rust at $reference: the comparison is skipped"
fi

echo "$verdict"
