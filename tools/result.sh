# How ./rerun lays a result out. Read behind tools/rerun.sh; a result is $work/RULE.result.
late=7 # W6: an interrupt that can be entered is entered at most so many ticks late

bytes_of() { # RULE FROM LENGTH: those bytes of its result, in decimal
    stretch "$@" | od -An -v -tu1
}

data_of() { # RULE: the data afterwards; behind read_result
    stretch "$1" $((48 + 4 * entered)) "$data_bytes"
}

core_of() { # RULE: the core afterwards, a line NAME VALUE each; SREG by its letters too
    bytes_of "$1" 10 38 | awk '
        { for (i = 1; i <= NF; i++) byte[n++] = $i }
        END {
            for (i = 0; i < 32; i++) printf "R%d %02X\n", i, byte[i]
            left = byte[32]
            for (i = 1; i <= 8; i++) {
                letters = (left % 2 ? substr("CZNVSHTI", i, 1) : "-") letters
                left = int(left / 2)
            }
            printf "SREG %02X %s\n", byte[32], letters
            printf "PC %04X\nSP %04X\n", byte[33] * 256 + byte[34], byte[35] * 256 + byte[36]
            printf "busy %d\ninhibit %d\nin-service %d\n", int(byte[37] / 32), int(byte[37] / 16) % 2, int(byte[37] / 8) % 2
        }'
}

records_of() { # RULE: a line for each record of the schedule: its tick, its vector, the tick of its entry or 0; behind read_result
    { bytes_of "$1" 48 $((4 * entered)) && echo list && bytes_of "$1" $((48 + 4 * entered + data_bytes)) 327680; } | awk '
        $1 == "list" { list = 1; n = 0; next }
        { for (i = 1; i <= NF; i++) if (list) in_list($i); else in_entries($i) }
        function in_entries(byte) {
            number = number * 256 + byte
            if (++n % 4 == 0) { entry[n / 4] = number; number = 0 }
        }
        function in_list(byte) {
            number = number * 256 + byte
            if (++n % 5 == 3) { tick = number; number = 0 }
            if (n % 5 == 0) { print tick, number, entry[n / 5] + 0; number = 0 }
        }'
}

lay_core() { # NAME VALUE lines: registers in four rows of eight; busy and the flags where they are not zero
    awk '
        /^R/ { i = NR - 1; if (i % 8 == 0) printf "%-10s", "R" i "..R" i + 7; printf " %s%s", $2, i % 8 == 7 ? "\n" : ""; next }
        /^SREG/ { printf "%-10s 0x%s %s\n", $1, $2, $3; next }
        /^[PS]/ { printf "%-10s 0x%s\n", $1, $2; next }
        $2 > 0 { printf "%-10s %s\n", $1, $2 }'
}

lay_data() { # RULE FROM LENGTH: that stretch of data, 16 bytes a line behind their address; behind read_result
    echo
    echo "data from $2, $(spaced "$3") of $(spaced "$data_bytes") bytes" | awk '{ $3 = sprintf("0x%04X,", $3); print }'
    stretch "$1" $((48 + 4 * entered + $2)) "$3" | od -An -v -tx1 | awk -v at="$2" '
        { for (i = 1; i <= NF; i++) { printf n % 16 ? " %s" : (n ? "\n" : "") "0x%04X     %s", n % 16 ? $i : at + n, $i; n++ } }
        END { print "" }'
}

lay_records() { # lines of records_of: the table of the schedule, and W6 beside it
    awk -v late=$late '
        function spaced(n,  s) { for (s = ""; n >= 1000; n = int(n / 1000)) s = sprintf(",%03d%s", n % 1000, s); return n s }
        { line[NR] = sprintf("%11s  %7s", spaced($1), $2); over = "" }
        $3 { entered++; if ($3 - $1 > late) { over = " *"; some = 1 }; line[NR] = line[NR] sprintf("  %13s  %7s%s", spaced($3), spaced($3 - $1), over) }
        !$3 { line[NR] = line[NR] "    not entered" }
        END {
            print "\nschedule, " spaced(NR) " record" (NR == 1 ? "" : "s") ", " spaced(entered + 0) " entered"
            print "       tick   vector     entered at   waited"
            for (i = 1; i <= NR; i++) print line[i]
            print (some ? "* longer than " late " ticks: " : "") "an interrupt that can be entered is entered at most " late " ticks late (docs/CYCLES.md); longer waits had a handler under way, I clear, or a RETI or SEI"
        }'
}

how_it_ended() { # RULE: a line of words; behind read_result
    if [ "$answer" = 24 ] && [ "$ticks" -lt "$budget" ]; then
        echo "broken off after $(spaced "$ticks") ticks, rule $1"
    elif [ "$answer" -lt 16 ]; then
        echo "$(ending "$answer"); at tick $(spaced $((ticks + 1))), after $(spaced "$ticks") ticks, rule $1"
    else
        echo "$(ending "$answer") after $(spaced "$ticks") ticks, rule $1"
    fi
}

lay_result() { # RULE [FROM LENGTH]: all that a person reads of one run
    read_result "$1"
    how_it_ended "$1"
    echo
    core_of "$1" | lay_core
    [ $# = 1 ] || lay_data "$@"
    [ -z "$schedule" ] || records_of "$1" | lay_records
}

keep_parts() { # RULE [FROM LENGTH]: what is compared, in files of their own
    read_result "$1"
    ending "$answer" >"$work/$1.answer"
    spaced "$ticks" >"$work/$1.ticks"
    core_of "$1" >"$work/$1.registers"
    data_of "$1" >"$work/$1.data"
    records_of "$1" >"$work/$1.entries"
    [ $# = 1 ] || lay_data "$@" >"$work/$1.shown"
}

lay_comparison() { # PARTS...: whether source and chip agree in each, and where they part
    echo 'source and chip'
    for part in "$@"; do
        printf '%-10s ' "$part"
        if cmp -s "$work/source.$part" "$work/chip.$part"; then echo 'the same'; else echo "differ: $("differing_$part")"; fi
    done
}

differing_answer() {
    echo "under source $(cat "$work/source.answer"), under chip $(cat "$work/chip.answer")"
}

differing_ticks() {
    echo "$(cat "$work/source.ticks") under source, $(cat "$work/chip.ticks") under chip"
}

differing_registers() {
    paste -d ' ' "$work/source.registers" "$work/chip.registers" | awk '
        $2 != $(NF / 2 + 2) { printf "%s%s %s and %s", some++ ? ", " : "", $1, $2, $(NF / 2 + 2) }
        END { print "" }'
}

differing_data() {
    cmp -l "$work/source.data" "$work/chip.data" | awk -v all="$(spaced "$data_bytes")" '
        NR == 1 { first = $1 - 1 }
        END { printf "%d of %s bytes, the first at 0x%04X, the last at 0x%04X\n", NR, all, first, $1 - 1 }'
}

differing_shown() {
    echo 'some of these bytes are in the stretch that is shown'
}

differing_entries() { # the first ten records that were entered at another tick
    paste -d ' ' "$work/source.entries" "$work/chip.entries" | awk '
        $3 == $6 { next }
        ++some <= 10 { printf "%s%d (%s and %s)", (some == 1 ? "record " : ", "), NR, ($3 ? $3 : "not"), ($6 ? $6 : "not") }
        END { print (some > 10 ? " and " some - 10 " more" : "") " of " NR }'
}
