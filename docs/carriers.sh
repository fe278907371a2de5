#!/bin/sh
# Holds docs/PROVED.md to the repository, both ways. In every table a column with the head
# definition, theorem, contract, type, edit or run has names of that kind, after each group of
# names its crate in brackets; names after another of these words are of that kind up to the next
# semicolon; the first cell under the head entry, function or call has functions in the same way.
# Each name must be declared, whole, where its kind stands. No entry has a `requires`, each has two
# edits, every edit and every public function of a library is named (but those of test_support, which
# the programs that only test share), and every rule that a comment cites has a row. Prints what does
# not hold: the row, the name, the crate, and where else the name stands; if all holds, how many
# carriers there are, and how many of the edits are wrong programs and how many wrong definitions.
set -u
cd "$(dirname "$0")/.." || exit 2
proved=docs/PROVED.md
index=$(mktemp) && found=$(mktemp) || exit 2
trap 'rm -f "$index" "$found"' EXIT

# What specs and laws declare: kind, crate, name.
declared() {
    find crates -name '*.antt' ! -name Proof.antt ! -name Invariants.antt ! -name Answers.antt ! -path '*/out/*' -print0 | xargs -0 awk '
        /^ *--/ { next }
        {
            split(FILENAME, part, "/")
            kind = part[3] == "specs" ? "definition" : "theorem"
            sub(/^ +/, "")
            while (sub(/^(abbrev|unfoldable|pub) +/, "")) continue
            if (/^(record|data) +[^{ ]/) print kind "\t" part[2] "\t" $2
            else if (/^[^ (]+( [{][^}]*[}])* :( |$)/) print kind "\t" part[2] "\t" $1
        }'
}

# What the code declares: types, and functions, by whether they are public and have an `ensures` or a
# `requires`. A method's name has its type before it.
coded() {
    find crates -name '*.rt' ! -path '*/out/*' -print0 | xargs -0 awk '
        function tell(kind, name) { print kind "\t" part[2] "\t" name }
        FNR == 1 { split(FILENAME, part, "/"); owner = name = "" }
        /^ *\/\// { next }
        /^}/ { owner = "" }
        /^impl/ {
            owner = $0; sub(/^impl(<[^>]*>)? */, "", owner); sub(/[^A-Za-z0-9_].*/, "", owner)
            owner = owner "::"
        }
        match($0, /(struct|enum) [A-Za-z0-9_]+/) {
            type = substr($0, RSTART, RLENGTH); sub(/.* /, "", type)
            tell("type", type)
        }
        match($0, /(^|[ )])fn [a-z_0-9]+/) {
            name = substr($0, RSTART, RLENGTH); sub(/.* /, "", name); name = owner name
            if (/^ *pub (extern "C" )?fn/) tell("public", name)
        }
        /^ *ensures/ { tell("contract", name) }
        /^ *requires/ { tell("requires", name) }'
}

# The edits, those of them that change a definition, the programs with their output, the kinds of the
# comparison, the crates that are libraries, and the rules that comments cite.
others() {
    ls crates/*/must-fail/*.edit | awk -F '[/.]' '{ print "edit\t" $2 "\t" $4 }'
    grep -l '^file: specs/' crates/*/must-fail/*.edit | awk -F '[/.]' '{ print "defining\t" $2 "\t" $4 }'
    ls crates/*/stdout | awk -F / '{ print "run\tprogram\t" $2 }'
    ls compare/src/kinds/*.rs | awk -F '[/.]' '{ print "run\tcompare\t" $4 }'
    ls crates/*/src/lib.rt | grep -v '/test_support/' | awk -F / '{ print "library\t" $2 "\t" }'
    grep -rhoE '\([A-Z]+[0-9]+(\.[0-9]+)?(, [A-Z]+[0-9]+(\.[0-9]+)?)*\)' crates compare/src \
        --include='*.rt' --include='*.antt' --include='*.rs' |
        tr -d '() ' | tr ',' '\n' | awk '{ print "cited\t\t" $0 }'
}

{ declared && coded && others; } | sort -u >"$index" || exit 2

awk -F '\t' -v page="$proved" '
    function wrong(text) { print page ": " label ": " text; bad = 1 }

    # Where a name stands that is not where it was looked for.
    function elsewhere(name,    key, field, text) {
        for (key in there) {
            split(key, field, "\t")
            if (field[3] != name || !(field[1] in kinds)) continue
            text = text (text ? ", " : "; it is ") field[1] " (" field[2] ")"
        }
        return text
    }

    function carrier(kind, name, crate) {
        carriers++
        named[kind "\t" crate "\t" name] = 1
        if (!((kind "\t" crate "\t" name) in there))
            wrong("no " kind " `" name "` (" crate ")" elsewhere(name))
        if (!listing) return
        home = crate
        placed[crate "\t" name] = 1
        if (listing == "entry" && ("requires\t" crate "\t" name) in there) wrong("`" name "` has a requires")
    }

    # The carriers of a cell, and how many; a name without a crate is of the crate `own`, if there is one.
    function cell(text, kind, own,    parts, part, i, word, as, held, name, token, all, k) {
        parts = split(text, part, "; ")
        for (i = 1; i <= parts; i++) {
            as = kind
            held = 0
            while (match(part[i], /`[^`]*`|[(][a-z_0-9]+[)]|[A-Za-z0-9.]+/)) {
                token = substr(part[i], RSTART, RLENGTH)
                part[i] = substr(part[i], RSTART + RLENGTH)
                word = substr(token, 2, length(token) - 2)
                if (token in kinds) as = token
                else if (token ~ /^`/) { name[++held] = word; all++ }
                else if (token ~ /^[(]/) {
                    for (k = 1; k <= held; k++) carrier(as, name[k], word)
                    held = 0
                } else if (token ~ /^[A-Z]+[0-9]+([.][0-9]+)?$/) asked[token] = label
            }
            for (k = 1; k <= held; k++) {
                if (own) carrier(as, name[k], own)
                else wrong("`" name[k] "` has no crate")
            }
        }
        return all
    }

    function columns(    i) {
        for (i in head) delete head[i]
        for (i = 2; i < fields; i++) head[i] = field[i]
    }

    BEGIN {
        split("definition theorem contract type edit run", word, " ")
        for (i in word) kinds[word[i]] = 1
    }

    FNR == NR { there[$1 "\t" $2 "\t" $3] = 1; next }

    !/^[|]/ { table = 0; next }
    /^[|]---/ { next }
    {
        fields = split($0, field, "|")
        for (i = 2; i < fields; i++) gsub(/^ +| +$/, "", field[i])
        if (!table) { columns(); table = 1; next }
        label = field[2]
        home = ""
        if (head[2] == "row" && rows[label]++) wrong("a second row")
        if (head[2] == "call") cell(label, "contract", "")
        if (head[2] == "entry" || head[2] == "function") {
            listing = head[2]
            cell(label, "contract", "")
            listing = ""
        }
        for (i = 3; i < fields; i++) {
            if (head[i] == "rows") cell(field[i], "", "")
            else if (head[i] in kinds) {
                n = cell(field[i], head[i], home)
                if (head[2] == "entry" && head[i] == "edit" && n < 2) wrong("fewer than two edits")
            }
        }
    }

    END {
        for (row in asked) if (!(row in rows)) { label = asked[row]; wrong("no row " row) }
        for (key in there) {
            split(key, field, "\t")
            label = field[2]
            if (field[1] == "edit" && !(key in named)) wrong("no row for the edit `" field[3] "`")
            edits[field[1]]++
            if (field[1] == "public" && ("library\t" label "\t") in there && !((label "\t" field[3]) in placed))
                wrong("no row of functions for `" field[3] "`")
            if (field[1] == "cited" && !(field[3] in rows)) {
                label = "comments"
                wrong("they cite " field[3] ", which has no row")
            }
        }
        if (bad || !carriers) exit 1
        print "carriers: " carriers " named in " page ", all there"
        programs = edits["edit"] - edits["defining"]
        print "edits: " programs " wrong programs, " edits["defining"] " wrong definitions"
    }
' "$index" "$proved" >"$found"
held=$?
sort "$found"
exit "$held"
