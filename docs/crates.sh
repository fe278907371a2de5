#!/bin/sh
# Holds crates.txt to the crates: each lists the libraries that its files name and no other, and a line before
# it says what the crate is. Prints what does not hold.
set -u
cd "$(dirname "$0")/.." || exit 2

# crate, dependency: what crates.txt lists.
listed() {
    sed 's/#.*//; s/ staticlib:/:/' crates.txt |
        awk -F : 'NF == 2 { n = split($2, d, " "); for (i = 1; i <= n; i++) print $1, d[i] }'
}

# crate, dependency: the same where a file of the crate names the dependency.
named() {
    listed | while read -r crate dep; do
        grep -rqE --exclude-dir=out --include='*.rt' --include='*.antt' \
            "Rattle[.]${dep}[.]|(^|[^A-Za-z0-9_:])${dep}::" "crates/$crate" &&
            echo "$crate $dep"
    done
}

# The crates that have no comment line before them.
silent() { awk -F : '/^[a-z]/ { if (before !~ /^# [^-]/) print $1 } { before = $0 }' crates.txt; }

found=$(mktemp) || exit 2
trap 'rm -f "$found"' EXIT
{
    { listed && named; } | sort | uniq -u | sed 's/^\([^ ]*\) \(.*\)/crates.txt: \1 lists \2, which no file of it names/'
    silent | sed 's/^/crates.txt: no sentence for /'
} >"$found"
cat "$found"
[ ! -s "$found" ]
