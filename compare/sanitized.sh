#!/bin/sh
# Compiles the library with address checks of its own, into target/sanitized/libwavpack_stereo.a: every read
# and write that it makes is then checked, in lent lists and on its stack. The archive that is linked
# otherwise stays as it is.
#
# The kit compiles a library from one LLVM module. A kit of links, in which only clang is another, marks the
# functions of that module for checking before it compiles them.
set -eu
cd "$(dirname "$0")/.."
kit=$(dirname "$(dirname "$(readlink -f "$(command -v rt)")")")
out=$PWD/target/sanitized
room=$(mktemp -d)
trap 'rm -rf "$room"' EXIT
mkdir -p "$out" "$room/kit/bin" "$room/kit/toolchain/bin" "$room/repository"

link_all_but() { # NAMES FROM TO
    for part in "$2"/*; do
        case " $1 " in
        *" ${part##*/} "*) ;;
        *) ln -s "$part" "$3/" ;;
        esac
    done
}
link_all_but 'bin toolchain' "$kit" "$room/kit"
link_all_but 'bin' "$kit/toolchain" "$room/kit/toolchain"
link_all_but 'clang' "$kit/toolchain/bin" "$room/kit/toolchain/bin"
# A script of the kit takes the kit that its own file stands in, so those are copied.
for part in "$kit"/bin/*; do
    case ${part##*/} in
    rt | rt-* | *.py) cp "$part" "$room/kit/bin/" ;;
    *) ln -s "$part" "$room/kit/bin/" ;;
    esac
done

cat >"$room/kit/toolchain/bin/clang" <<END
#!/bin/sh
set -eu
for word; do
    shift
    case \$word in
    *.bc)
        "$kit/toolchain/bin/clang" -x ir -S -emit-llvm -Xclang -disable-llvm-passes "\$word" -o plain.ll
        sed 's/^\\(attributes #[0-9]* = {\\)\\(.*"probe-stack"\\)/\\1 sanitize_address\\2/' \
            plain.ll >checked.ll
        word=checked.ll
        ;;
    esac
    set -- "\$@" "\$word"
done
exec "$kit/toolchain/bin/clang" "\$@" -fsanitize=address
END
chmod +x "$room/kit/toolchain/bin/clang"

# In a copy, so that the archive that is linked otherwise is not written over; what was proved is not proved
# again.
tar -cf - --exclude='crates/*/out/incremental' crates crates.txt | tar -xf - -C "$room/repository"
(cd "$room/repository/crates/wavpack_stereo_c" && "$room/kit/bin/rt" lib)
cp "$room/repository/crates/wavpack_stereo_c/out/libwavpack_stereo_c.a" "$out/libwavpack_stereo.a"
if ! nm "$out/libwavpack_stereo.a" | grep -q __asan_report; then
    echo 'sanitized.sh: FAILED: the archive checks nothing'
    exit 1
fi
echo "$out/libwavpack_stereo.a checks its addresses"
