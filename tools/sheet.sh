# The release sheet: what a published figure rests on. Read behind tools/rerun.sh.

sum_of() { # FILE
    sum=$(sha256sum <"$1" 2>/dev/null) && echo "SHA-256 ${sum%% *}" || echo 'not known: no sha256sum'
}

last_gate() { # COMMIT: when the last full gate of this folder ended, what its last line was, and whether it was of this commit
    [ -r "$here/target/gate" ] || { echo 'none was run in this folder: .ci/run' && return; }
    { read -r date && read -r commit && read -r last; } <"$here/target/gate"
    case $1 in
    'no git') of='of which commit is not known: no git' ;;
    *changes*) of="not of this: there are changes that are not committed" ;;
    "$commit") of='of this commit' ;;
    *) of="not of this commit: of $commit" ;;
    esac
    echo "$date: $last; $of"
}

line() { # NAME TEXT
    printf '%-10s %s\n' "$1" "$2"
}

lay_sheet() { # of the run that the options say
    echo "release sheet"
    commit_now=$("$here/tools/commit")
    line version "$(cat "$here/VERSION")"
    line commit "$commit_now"
    line kit "$(rt version </dev/null)"
    line image "$file, $(sum_of "$work/hex")"
    if [ -n "$data" ]; then line data "$data, $(sum_of "$work/data")"; else line data '16,384 zeros'; fi
    if [ -n "$schedule" ]; then line schedule "$schedule, $(sum_of "$work/schedule")"; else line schedule none; fi
    line SP "$(printf '0x%04X' "$sp")"
    line rule "$rule"
    line budget "$(spaced "$budget") ticks"
    line run "$(date -u '+%Y-%m-%d %H:%M:%S UTC')"
    line gate "$(last_gate "$commit_now")"
}
