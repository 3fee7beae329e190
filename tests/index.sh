# Tries firmware/index: the story's day, what is wrong with a file of readings, the picture of README, and 1,000 random days against heat.c built natively (tests/days.c).
# Read by tests/run behind tests/rerun.sh, and uses its functions.
day=firmware/days/2026-07-14.csv corrected=firmware/days/2026-07-14-corrected.csv

shows() { # EXPECTED COMMAND...: prints this file, says nothing beside it, and ends with 0
    expected=$1
    shift
    "$@" >"$work/printed" 2>"$work/said" && cmp -s "$work/printed" "$expected" && [ ! -s "$work/said" ]
}

csv() { # LINES...: a file of readings with a header, $work/day.csv
    { echo 'time,temperature,humidity' && printf '%s\n' "$@"; } >"$work/day.csv"
}

refuses_line() { # LINE TEXT LINES...: firmware/index names that line of the file and says TEXT
    line=$1 text=$2
    shift 2
    csv "$@"
    used_wrongly "day.csv: line $line: $text" firmware/index "$work/day.csv"
    note $? "firmware/index: $text"
}

nine() { # TEMPERATURE HUMIDITY: nine hours with these readings
    for hour in 0 1 2 3 4 5 6 7 8; do echo "2026-07-14 1$hour:00,$1,$2"; done
}

try_lines() { # each mistake of a line
    refuses_line 3 'no readings' '# only a remark'
    refuses_line 2 'three fields' '2026-07-14 12:00,28.4'
    refuses_line 3 'three fields' '2026-07-14 12:00,28.4,58' '2026-07-14 13:00,28.4,58,1'
    for time in 2026-07-14 '2026-07-14 24:00' '2026-07-14 12:60' '2026-02-29 12:00' '2026-13-01 12:00' '1969-12-31 23:00' '2106-01-01 00:00' '14.7.2026 12:00'; do
        refuses_line 2 "'$time' is no time" "$time,28.4,58"
    done
    refuses_line 4 '2026-07-14 12:00 is there twice' '2026-07-14 12:00,28.4,' '# corrected' '2026-07-14 12:00,,58'
    for temperature in 28.45 28. .5 -40.1 60.1 warm 1e1 0x10; do
        refuses_line 2 "'$temperature' is no temperature" "2026-07-14 12:00,$temperature,58"
    done
    for humidity in 101 -1 58.5 '58 %'; do
        refuses_line 2 "'$humidity' is no humidity" "2026-07-14 12:00,28.4,$humidity"
    done
    refuses_line 10 'a ninth temperature' "$(nine 28.4 '')"
    refuses_line 10 'a ninth humidity' "$(nine '' 58)"
}

try_use() { # every other mistake
    used_wrongly 'no file of readings' firmware/index
    note $? 'firmware/index on nothing'
    used_wrongly 'there is no file no_such_file' firmware/index no_such_file
    note $? 'firmware/index on no file'
    used_wrongly 'is a folder' firmware/index $day tests
    note $? 'firmware/index on a folder'
    used_wrongly 'line 1: the header is missing' firmware/index LICENSE
    note $? 'firmware/index on no CSV'
    used_wrongly 'line 1: the header is missing' firmware/index $day /dev/null
    note $? 'firmware/index on an empty file'
    used_wrongly 'two files of readings' firmware/index $day $day $day
    note $? 'firmware/index on three files'
    used_wrongly 'no such option: --png' firmware/index $day --png
    note $? 'firmware/index with a wrong option'
    used_wrongly 'needs the name' firmware/index $day --svg
    note $? 'firmware/index --svg with no file'
    used_wrongly 'is a folder' firmware/index $day --svg tests
    note $? 'firmware/index --svg on a folder'
    used_wrongly 'cannot be written' firmware/index $day --svg "$work/no_such_folder/index.svg"
    note $? 'firmware/index --svg that cannot be written'
    used_wrongly 'would overwrite' firmware/index $day --svg $day
    note $? 'firmware/index --svg over its readings'
}

made_now() { # README's picture is what the command makes
    firmware/index $day $corrected --svg "$work/index.svg" >/dev/null && cmp -s "$work/index.svg" docs/index.svg
}

image_is_the_day() ( # the log made of the story's day is the image's own
    index_functions
    awk -f firmware/readings.awk $day >"$work/readings" && make_days "$work/readings" && tr -d '\r' <"$timer_image" | cmp -s - "$work/day1.hex"
)

index_functions() {
    name=index
    . tools/rerun.sh
    . firmware/index.sh
}

against_native() ( # HOW_MANY: random days under both rules, and by heat.c: the same hours, indexes and hottest hours
    index_functions
    mkdir -p "$work/days" && awk -v days="$1" -v into="$work/days" -f tests/days.awk
    cc -std=gnu11 -O2 -Wall -Wextra -Werror -Ifirmware tests/days.c firmware/heat.c -o "$work/native" || exit 1
    set -- $(awk -v days="$1" -v into="$work/days" 'BEGIN { for (day = 1; day <= days; day++) print into "/" day ".csv" }')
    awk -f firmware/readings.awk "$@" >"$work/readings" && make_days "$work/readings" || exit 1
    make_starts
    run_days $#
    "$work/native" "$@" >"$work/native.reports"
    for rule in source chip; do
        reports_of $rule >"$work/$rule.reports"
        cmp "$work/$rule.reports" "$work/native.reports" || exit 1
    done
    [ "$(grep -c '^day' "$work/native.reports")" = $# ] && [ "$(grep -c '^index' "$work/native.reports")" -gt $(($# * 2)) ]
)

rules_that_part() ( # what is said where the reports of the rules differ, and where a run did not come to its end
    index_functions
    eval "$(sed -n '/^rules_agree()/,/^}/p' firmware/index)"
    record() { printf "\\000\\0$1" && word "$2" && head -c 53 /dev/zero; }
    record 26 0 >"$work/source.records" && record 26 256 >"$work/chip.records"
    (rules_agree) 2>"$work/said"
    [ $? = 1 ] && grep -q "do not agree: '' under source, 'index 0 0' under chip" "$work/said" || exit 1
    record 30 0 >"$work/source.records" && cp "$work/source.records" "$work/chip.records"
    (rules_agree) 2>"$work/said"
    [ $? = 1 ] && grep -q 'did not come to its BREAK: ended at its budget' "$work/said"
)

shows tests/rerun/index.txt firmware/index $day
note $? 'firmware/index on a day'
shows tests/rerun/index_corrected.txt firmware/index $day $corrected
note $? 'firmware/index on a day and its correction'
! grep -q '13:00.*78.28' tests/rerun/index.txt && grep -q '13:00  *30.1  *-  *-  no humidity' tests/rerun/index.txt
note $? 'the hour that the lost flag would have given an index'
made_now
note $? 'docs/index.svg is what firmware/index makes'
image_is_the_day
note $? 'the log of the story'\''s day is the image'\''s'
firmware/index --help | grep -q '^firmware/index READINGS.csv '
note $? 'firmware/index --help'
runs_nothing 'no rt on PATH' without_the_kit "$root/firmware/index" "$root/$day"
note $? 'firmware/index without the kit'
try_use
try_lines
quietly 'firmware/index where the rules part' rules_that_part
if there 'random days against heat.c' cc; then quietly '1,000 random days against heat.c' against_native 1000; fi
