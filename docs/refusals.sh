#!/bin/sh
# Holds what people read of the refusals to include/refusals.txt: the C header, the table in
# docs/REFUSALS.md and the Rust bindings have each number with its name and wording, and no other
# refusal; the program `morning` has those that a recording can meet, 1 in words of its own, since there
# it is about the length of the whole input. Prints what does not hold.
set -u
cd "$(dirname "$0")/.." || exit 2
table=include/refusals.txt
short='the input is shorter than 16 bytes: 12 entropy bytes and a 4-byte frame count'

awk -v table="$table" -v short="$short" '
    function wrong(text) { print file ": " text; bad = 1 }

    # NOT_STEREO as a Rust name, NotStereo.
    function camel(name,    parts, part, i, text) {
        parts = split(name, part, "_")
        for (i = 1; i <= parts; i++) text = text substr(part[i], 1, 1) tolower(substr(part[i], 2))
        return text
    }

    # A refusal as a file words it; the name is empty where the file has none.
    function worded(number, name, text) {
        seen[file, number] = 1
        if (!(number in wording)) wrong("there is no " number " in " table)
        else if (name && name != names[number]) wrong(number " is " names[number] " and not " name)
        else if (text != wording[number]) wrong(number " reads \"" text "\" and not \"" wording[number] "\"")
    }

    # Whether a recording can be refused with a number: up to what is too large, and for its log words.
    function met(number) { return number <= rust["TooLarge"] || number == rust["LogWordOutOfReach"] }

    # At the end of a file every number was there, in the program every one that is met.
    function ended(    number) {
        if (!file || file == table) return
        for (number = 1; number <= last; number++)
            if (!((file, number) in seen) && (file !~ /[.]rt$/ || met(number)))
                wrong("no " number ", \"" wording[number] "\"")
    }

    FNR == 1 { ended(); file = FILENAME }

    FILENAME == table {
        if (/^(#|$)/) next
        if ($1 != ++last) wrong($1 " where " last " is next")
        names[last] = $2
        rust[camel($2)] = last
        sub(/^[^ ]+ [^ ]+ /, "")
        wording[last] = $0
    }

    # The header: each name with its number, and in a switch each name with its wording, which may be
    # in pieces. 0 and a number without a name are no refusals of the table.
    FILENAME ~ /[.]h$/ {
        if (/^#define WV_[A-Z0-9_]+ [0-9]+u$/) value[substr($2, 4)] = $3 + 0
        if (/^ *default:/) name = ""
        if (/^ *case WV_[A-Z0-9_]+:/) { name = substr($2, 4); sub(/:$/, "", name); text = "" }
        if (/^ *(return )?"[^"]*";?$/) {
            text = text substr($0, index($0, "\"") + 1)
            sub(/";?$/, "", text)
            if (/;$/ && name && !(name in value)) wrong("there is no number for " name)
            else if (/;$/ && name && value[name]) worded(value[name], name, text)
        }
    }

    # docs/REFUSALS.md: the rows with a number, a name and a wording.
    FILENAME ~ /[.]md$/ && /^[|] [1-9][0-9]* [|] `[A-Z0-9_]+` [|] / {
        split($0, cell, / *[|] */)
        worded(cell[2] + 0, substr(cell[3], 2, length(cell[3]) - 2), cell[4])
    }

    # The bindings: a row has a number, a name and a wording, which may stand on the next line.
    FILENAME ~ /[.]rs$/ && /^ *[0-9]+ [A-Z][A-Za-z0-9]*( "|$)/ {
        number = $1 + 0
        if (rust[$2] != number) wrong($2 " is " number ", and that is not what " table " has")
    }
    FILENAME ~ /[.]rs$/ && number && /^ *([0-9]+ [A-Z][A-Za-z0-9]* )?"[^"]*",$/ {
        worded(number, "", substr($0, index($0, "\"") + 1, length($0) - index($0, "\"") - 2))
        number = 0
    }

    # The program: after the arm of a refusal stands its wording, and after the arm `_` that of what is
    # too large.
    FILENAME ~ /[.]rt$/ && !/^ *[/][/]/ {
        if (/^}/) arm = 0
        if (/^ *(Refusal::[A-Za-z0-9]+|_) =>/) {
            name = $1
            sub(/^Refusal::/, "", name)
            arm = name == "_" ? rust["TooLarge"] : rust[name]
        }
        if (!arm || !match($0, /"[^"]*"/)) next
        text = substr($0, RSTART + 1, RLENGTH - 2)
        if (arm == rust["EntropyLength"] && text == short) text = wording[arm]
        worded(arm, "", text)
    }

    END {
        ended()
        if (bad || !last) exit 1
        print "refusals: " last " in " table ", worded alike in header, page, bindings and program"
    }
' "$table" include/wavpack_stereo_refusals.h docs/REFUSALS.md bindings/rust/src/refusal.rs \
    crates/morning/src/output.rt
