# What firmware/index and its test share: days of readings through the image heat_index_timer, on the program `rerun`. Read behind tools/rerun.sh, with `here` as the repository's folder.
timer_image=$here/firmware/heat_index_timer.hex
timer_vector=16 timer_period=1000  # vector 8 of start.S as a word address; TCA0_PER is 999
day_budget=100000                  # no day takes a tenth of it
report_at=$((0x3800)) report_bytes=55 # struct report of heat.h
record_bytes=$((2 + report_bytes)) # what is kept of a run: two bytes that say how it ended, and its report

make_days() { # READINGS: HEX files $work/day1.hex and so on from lines of readings.awk
    awk -v into="$work/day" -f "$here/firmware/log.awk" "$timer_image" "$1"
}

make_starts() { # the start of a run under each rule, $work/RULE.start, up to the HEX text; all days' texts have the length of the first's. The timer fires up to the budget
    cp "$work/day1.hex" "$work/hex"
    head -c 16384 /dev/zero >"$work/data"
    awk -v every=$timer_period -v last=$day_budget -v vector=$timer_vector 'BEGIN { for (tick = every; tick <= last; tick += every) print tick, vector }' >"$work/schedule"
    make_head
    for each in source chip; do
        make_state "$each" $((0x3FFF))
        { cat "$work/head" && long $day_budget && cat "$work/state"; } >"$work/$each.start"
    done
    from_end=$((5 * day_budget / timer_period + data_bytes - report_at))
}

run_day() { # RULE NUMBER: adds a record to $work/RULE.records
    cat "$work/$1.start" "$work/day$2.hex" "$work/schedule" | run rerun >"$work/output" || stop "the program rerun ended with status $?"
    { head -c 2 "$work/output" && tail -c "$from_end" "$work/output" | head -c $report_bytes; } >>"$work/$1.records"
}

run_days() { # HOW_MANY: each under both rules
    for each in source chip; do
        : >"$work/$each.records"
        day=0
        while [ $((day += 1)) -le "$1" ]; do run_day "$each" $day; done
    done
}

reports_of() { # RULE: its records as lines: `day NUMBER ANSWER`, of each hour `index STAMP HUNDREDTHS`, and `hottest STAMP`; tabs between
    od -An -v -tu1 "$work/$1.records" | awk -v bytes=$record_bytes '
        BEGIN { OFS = "\t" }
        { for (i = 1; i <= NF; i++) { byte[n++] = $i; if (n == bytes) { record(); n = 0 } } }
        function record(  i) {
            print "day", ++days, (byte[0] == 0 ? byte[1] : "none")
            for (i = 0; i < byte[2] && i < 8; i++) print "index", stamp(3 + 6 * i), signed(7 + 6 * i)
            if (byte[2] > 0) print "hottest", stamp(51)
        }
        function stamp(at) { return sprintf("%.0f", ((byte[at + 3] * 256 + byte[at + 2]) * 256 + byte[at + 1]) * 256 + byte[at]) }
        function signed(at,  value) { value = byte[at + 1] * 256 + byte[at]; return value < 32768 ? value : value - 65536 }'
}
