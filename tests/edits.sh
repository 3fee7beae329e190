# Checks a copy of the crate with each edit that makes several functions wrong at once, since `rt` tells of an edit only the first error: it has to be refused in each of them.
# Its first line ends in 'Refused in A, B.'. Read by tests/run.
edited=$work/edited

copy_crate() { # CRATE: its files as they are, without what a check has left
    mkdir -p "$edited/crates/$1"
    for part in src specs proofs; do
        rm -rf "$edited/crates/$1/$part"
        [ ! -d "crates/$1/$part" ] || cp -R "crates/$1/$part" "$edited/crates/$1"
    done
}

copy_repository() {
    rm -rf "$edited"
    for crate in crates/*/; do copy_crate "$(basename "$crate")"; done
    for file in crates.txt HANDLES; do [ ! -f "$file" ] || cp "$file" "$edited"; done
}

apply_edit() { # EDIT: each old text, which stands once in its file, becomes the new one
    awk -v folder="$edited/crates/$crate/" '
        function all(file,    line, text) {
            while ((getline line < file) > 0) text = text line "\n"
            close(file)
            return text
        }
        /^file: / { file = folder substr($0, length("file: ") + 1) }
        /^old: / { old = substr($0, length("old: ") + 1) }
        /^new:/ {
            text = all(file)
            at = index(text, old)
            rest = substr(text, at + length(old))
            if (!at || index(rest, old)) exit 1
            printf "%s%s%s", substr(text, 1, at - 1), substr($0, length("new: ") + 1), rest >file
            close(file)
        }' "$1"
}

refused_in_each() ( # CRATE EDIT LOG: a fact fails in each function's own proof: not only one of a function that it calls, and not only a name that the edit took away
    for function in $(sed -n '1s/.*Refused in \(.*\)\.$/\1/p' "$2" | tr -d ,); do
        proof=/proofs/$(echo "$function" | sed 's|::|/|g')/[A-Z][a-z]*.antt
        grep -q "^fn $1::$function: no proof: .*did not prove" "$3" ||
            grep "$proof:[0-9:]* error: " "$3" | grep -q -v 'was not checked\|has no field\|has no `\|is not in scope' || exit 1
    done
)

try_edits() {
    copy_repository
    for edit in $(grep -l 'Refused in ' crates/*/must-fail/*.edit); do
        crate=${edit#crates/} crate=${crate%%/*}
        apply_edit "$edit" &&
            (cd "$edited/crates/$crate" && rt check </dev/null >"$work/log" 2>&1; [ $? = 1 ]) &&
            refused_in_each "$crate" "$edit" "$work/log"
        note $? "$edit: refused in each function that it names"
        copy_crate "$crate"
    done
    rm -rf "$edited"
}

if there tests/edits.sh rt; then try_edits; fi
