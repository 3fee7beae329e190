# Tries ./rerun: whole results against tests/rerun, refused runs, both rules, schedules, steps, breaking off, the release sheet and every mistake.
# Read by tests/run behind tests/trace.sh and tests/hex.sh, and uses their functions.
timer=firmware/heat_index_timer.hex
example_hex=tests/hex/example.hex
loop=$work/loop.hex

hex_file() { # BYTES: a HEX file of one line, the bytes as digits
    awk -v bytes="$1" 'BEGIN {
        digits = "0123456789ABCDEF"
        line = sprintf("%02X000000", length(bytes) / 2) bytes
        for (i = 1; i < length(line); i += 2) sum += (index(digits, substr(line, i, 1)) - 1) * 16 + index(digits, substr(line, i + 1, 1)) - 1
        printf ":%s%02X\n:00000001FF\n", line, (256 - sum % 256) % 256
    }'
}

lasting() { # a result without the lines that change from day to day
    grep -v -E '^(version|commit|kit|run|gate) ' "$1"
}

results_in() { # EXPECTED STATUS OPTIONS...: ./rerun prints the file of tests/rerun, says nothing beside it, and ends so
    expected=tests/rerun/$1.txt ends=$2
    shift 2
    ./rerun "$@" >"$work/printed" 2>"$work/said"
    [ $? = "$ends" ] && lasting "$work/printed" | cmp -s - "$expected" && [ ! -s "$work/said" ]
    note $? "./rerun $*"
}

used_wrongly() { # TEXT COMMAND...: ends with 2, prints nothing, says one line with TEXT, and leaves no file $work/out
    text=$1
    shift
    "$@" >"$work/printed" 2>"$work/said" </dev/null
    [ $? = 2 ] && [ ! -s "$work/printed" ] && [ "$(wc -l <"$work/said")" = 1 ] && grep -q -F -e "$text" "$work/said" && [ -z "$(ls "$work" | grep -e '^out$' -e '^out\.')" ]
}

mistake() { # TEXT OPTIONS...: of ./rerun, which would write $work/out
    text=$1
    shift
    used_wrongly "$text" ./rerun "$@" --out "$work/out"
    note $? "./rerun $*: $text"
}

try_mistakes() {
    mistake 'no HEX file'
    mistake 'there is no file no_such_file.hex' no_such_file.hex
    mistake 'tests is a folder' tests
    mistake 'one HEX file at a time' $example_hex $example_hex
    mistake 'no such option: --hex' $example_hex --hex
    mistake 'too long; a HEX file has at most 1,048,576 bytes' "$work/long.hex"
    for number in 0x 12a 0xG -1 65536 0x10000 18446744073709551617; do
        mistake "--sp takes a number from 0 to 65,535, in decimal or as 0x3FFF; '$number' is none" $example_hex --sp "$number"
    done
    for number in 0 0x0 1e6 -1 4294967296 0x100000000; do
        mistake "--budget takes a number from 1 to 4,294,967,295, in decimal or as 0x3FFF; '$number' is none" --budget "$number" $example_hex
    done
    mistake "--rule takes source, chip or both; 'Chip' is none of them" $example_hex --rule Chip
    for option in --sp --budget --rule --data --schedule --show; do
        used_wrongly "$option needs a value" ./rerun $example_hex $option
        note $? "./rerun $option with no value"
        used_wrongly "$option is there twice" ./rerun $example_hex $option 1 $option 1
        note $? "./rerun $option twice"
    done
    head -c 65537 /dev/zero >"$work/long.data"
    mistake 'too long; a file of data has at most 65,536 bytes' $example_hex --data "$work/long.data"
    mistake 'there is no file no_such_data' $example_hex --data no_such_data
    mistake 'is a folder' $example_hex --data tests
    mistake 'there is no file no_such_schedule' $example_hex --schedule no_such_schedule
    for stretch in 5 :5 5: 5:0 x:1 1:2:3 65536:1; do
        mistake "--show takes FROM:LENGTH, an address and how many bytes, as 0x3800:55; '$stretch' is none" $example_hex --show $stretch
    done
    mistake '--show 0x3FFF:2 is not all in the data, which has 16,384 bytes' $example_hex --show 0x3FFF:2
}

try_outs() { # files that cannot be written, found out before the run
    for option in tests "$work/no_such_folder/out" /dev/null $example_hex; do
        used_wrongly "--out $option" ./rerun $example_hex --out "$option"
        note $? "./rerun --out $option"
    done
    mkdir "$work/both.chip"
    used_wrongly "--out $work/both.chip is a folder" ./rerun $example_hex --rule both --out "$work/both" && [ -z "$(ls "$work" | grep '^both\.source')" ]
    note $? './rerun --out with both rules, where one cannot be written'
}

refused_hex() { # CASE MEANING
    mistake "$1.hex: $(sed -n "s/^$1  *//p" tests/hex/expected): $2" "tests/hex/$1.hex"
}

try_hex() { # HEX texts that are refused
    refused_hex character 'a character that does not belong'
    refused_hex odd_digits 'the length of the line is wrong'
    refused_hex sum 'the sum at the end of the line'
    refused_hex type_03 'a record of another type than 00 and 01; avr-objcopy --set-start 0'
    refused_hex outside 'a byte at address 49152 or above; link the program below that'
    refused_hex falls 'an address below the end of the line before'
    refused_hex no_end 'the end record is missing'
    mistake 'refused-50 at line 1' README.md
    mistake 'refused-56 at line 1' /dev/null
}

refused_schedule() { # LINE MEANING TEXT
    printf "$3" >"$work/fired"
    mistake "fired: line $1: $2" $example_hex --schedule "$work/fired"
}

try_schedules() { # schedules that are refused
    for line in 5 '5 6 7' 'five 6' '5,6' '5 0x' '123456789 16' '5 -6' '5 16 remark'; do
        refused_schedule 3 "no 'TICK VECTOR'" "# fired at\n1 16 # first\n$line\n"
    done
    refused_schedule 1 'the tick is 0, or above 16,777,215' '0 16\n'
    refused_schedule 2 'the tick is 0, or above 16,777,215' '\n16777216 16\n'
    refused_schedule 2 'the tick is not above the one before' '5 16\n5 16\n'
    refused_schedule 1 'the vector is above 65,535' '5 0x10000\n'
    awk 'BEGIN { for (i = 1; i <= 65537; i++) print i, 16 }' >"$work/fired"
    mistake 'fired: line 65537: a schedule has at most 65,536 records' $example_hex --schedule "$work/fired"
}

try_results() { # whole results; of the schedule, the entries are those of host/rust/examples/schedule.rs
    results_in example 0 $example_hex
    results_in heat_index 0 firmware/heat_index.hex --show 0x3800:55
    results_in crc 0 --show 0x3800:2 firmware/crc.hex --rule chip
    results_in sort 0 firmware/sort.hex --show 0x3800:192
    results_in timer 0 $timer --schedule tests/rerun/fired --show 0x3800:58 --sp 0
    results_in timer_both 0 $timer --schedule tests/rerun/fired --show 0x3800:58 --rule both
    results_in agree 0 $example_hex --rule both
    results_in part 0 tests/rerun/adiw.hex --rule both --show 0x100:1
    results_in end 0 tests/rerun/rjmp_to_65535.hex
    results_in budget 0 $example_hex --budget 3
}

try_refused() { # 2 and 5 cannot be reached: at PC 65,533 and above there is no program, and a fresh core is not busy
    results_in refused_1 1 tests/rerun/jmp_outside.hex
    results_in refused_3 1 tests/rerun/rcall.hex --sp 1
    results_in refused_4 1 tests/rerun/lds_outside.hex --rule both
}

in_steps() { # NUMBER OPTIONS...: steps of so many ticks give what one gives
    steps=$1
    shift
    ./rerun "$@" >"$work/one" && RERUN_STEP=$steps ./rerun "$@" >"$work/many" || return 1
    lasting "$work/one" >"$work/one.lasting" && lasting "$work/many" | cmp -s - "$work/one.lasting"
}

try_steps() {
    in_steps 97 $timer --schedule tests/rerun/fired --rule both --show 0:16384
    note $? './rerun in steps of 97 ticks'
    in_steps 1 $example_hex
    note $? './rerun in steps of 1 tick'
    in_steps 30000 firmware/crc.hex --budget 90000
    note $? './rerun in steps up to its budget'
}

writes_what_it_shows() { # --out has the bytes of --show, and nothing is left beside it
    mkdir "$work/outs"
    ./rerun $timer --rule both --out "$work/outs/data" --show 0:16384 >"$work/printed" || return 1
    [ "$(ls "$work/outs" | tr '\n' ' ')" = 'data.chip data.source ' ] || return 1
    for rule in source chip; do
        sed -n "/rule $rule\$/,/^ended/p" "$work/printed" | sed -n 's/^0x[0-9A-F]*  *//p' >"$work/dumped"
        od -An -v -tx1 "$work/outs/data.$rule" | sed 's/^ *//' | cmp -s - "$work/dumped" || return 1
    done
    ./rerun $timer --data "$work/outs/data.chip" --out "$work/outs/data.source" >/dev/null && [ "$(wc -c <"$work/outs/data.source")" = 16384 ]
}

takes_all_data() { # 65,536 bytes and none
    head -c 65536 /dev/zero | tr '\0' '\245' >"$work/all.data"
    ./rerun $example_hex --data "$work/all.data" --out "$work/same" --show 0xFFFF:1 | grep -q '^0xFFFF     a5$' && cmp -s "$work/all.data" "$work/same" || return 1
    : >"$work/no.data"
    ./rerun $example_hex --data "$work/no.data" --out "$work/same" | grep -q '^ended at BREAK after 4 ticks' && [ ! -s "$work/same" ]
}

breaks_off() { # Ctrl-C after three seconds of a run that would last for longer; rt is not asked, which might take these seconds
    stand_in 0 "$unchanged"
    with_stand_in env RERUN_STEP=1000000 timeout -s INT --preserve-status 3 ./rerun "$loop" --budget 4294967295 --rule both --out "$work/cut" >"$work/printed" 2>"$work/said"
    [ $? = 130 ] && [ ! -s "$work/said" ] && grep -q '^broken off after [0-9,]*000,000 ticks, rule source$' "$work/printed" || return 1
    grep -q '^source and chip were not compared' "$work/printed" && grep -q '^budget  *4,294,967,295 ticks$' "$work/printed" && cmp -s "$work/cut.source" "$work/zeros" && [ ! -e "$work/cut.chip" ]
}

shows_progress() { # at a terminal, and wipes it off
    script -qec "env RERUN_STEP=30000 ./rerun firmware/crc.hex" /dev/null </dev/null >"$work/said"
    grep -q 'rerun: 60,000 of 100,000,000 ticks under source' "$work/said" && grep -q '\[Kended at BREAK after 104,599 ticks' "$work/said"
}

asks_for_rerun() { # rt is asked each time, and where it is not proved nothing is run
    stand_in 0 "$unchanged"
    with_stand_in ./rerun $example_hex >"$work/printed" && asked 'run rerun version' || return 1
    stand_in 1 'rt: the library rerunning did not build, so nothing above it was checked'
    runs_nothing 'rerunning did not build' with_stand_in ./rerun $example_hex && asked 'run rerun'
}

says_the_gate() ( # of which commit the last full gate was
    . tools/sheet.sh
    here=$work/gated
    mkdir -p "$here/target"
    [ "$(last_gate abc)" = 'none was run in this folder: .ci/run' ] || exit 1
    printf '2026-11-17 21:00:00 UTC\nabc\n9 passed, 0 failed\n' >"$here/target/gate"
    [ "$(last_gate abc)" = '2026-11-17 21:00:00 UTC: 9 passed, 0 failed; of this commit' ] || exit 1
    [ "$(last_gate def)" = '2026-11-17 21:00:00 UTC: 9 passed, 0 failed; not of this commit: of abc' ] || exit 1
    last_gate 'abc with changes that are not committed' | grep -q 'not of this: there are changes' && last_gate 'no git' | grep -q 'is not known: no git'
)

make_gate() { # a repository whose gate asks only stand-ins: RT_SAYS and TESTS_SAY are their last lines, FORMS the status of tools/forms
    rm -rf "$work/gated"
    mkdir -p "$work/gated/.ci" "$work/gated/tools" "$work/gated/tests" "$work/gated/bin"
    cp .ci/run "$work/gated/.ci" && cp tools/commit "$work/gated/tools"
    for tool in contracts claims dependencies sources forms cycles; do printf '#!/bin/sh\nexit ${%s:-0}\n' "$(echo $tool | tr a-z A-Z)" >"$work/gated/tools/$tool"; done
    printf '#!/bin/sh\necho "$RT_SAYS"\n' >"$work/gated/bin/rt"
    printf '#!/bin/sh\necho "$TESTS_SAY"\n' >"$work/gated/tests/run"
    chmod +x "$work"/gated/*/*
}

gate_says() { # STATUS LAST_LINE KEPT WORDS...: the gate, with these variables, ends so, and keeps this line
    ends=$1 last=$2 kept=$3
    shift 3
    env -u CI PATH="$work/gated/bin:$PATH" "$@" "$work/gated/.ci/run" >"$work/printed" 2>/dev/null
    [ $? = "$ends" ] && [ "$(tail -n 1 "$work/printed")" = "$last" ] && [ "$(sed -n 3p "$work/gated/target/gate")" = "$kept" ] && [ "$(sed -n 2p "$work/gated/target/gate")" = 'no git' ]
}

keeps_the_gate() {
    make_gate
    gate_says 0 '7 passed, 0 failed' '7 passed, 0 failed' RT_SAYS='4 passed, 0 failed' TESTS_SAY='3 passed, 0 failed' || return 1
    gate_says 1 '6 passed, 1 failed' '6 passed, 1 failed' RT_SAYS='4 passed, 0 failed' TESTS_SAY='2 passed, 1 failed' || return 1
    gate_says 1 '7 passed, 2 failed' '7 passed, 2 failed' TESTS_SAY='3 passed, 0 failed' RT_SAYS='rt: ok; must-fail edits: 5 refused, 1 bad; every proof was done in this run
4 passed, 0 failed' || return 1
    gate_says 3 '' 'stopped before its end' FORMS=3
}

hex_file FFCF >"$loop" # RJMP .-2
lines_of_no_bytes 5 >"$work/long.hex"
head -c 16384 /dev/zero >"$work/zeros"
build rerun >/dev/null 2>&1 # so that no case has to prove anything
try_results
try_refused
try_mistakes
try_outs
try_hex
try_schedules
try_steps
writes_what_it_shows
note $? './rerun --out'
takes_all_data
note $? './rerun --data with 65,536 bytes and with none'
if there 'breaking off' timeout; then breaks_off; note $? './rerun broken off'; fi
if there 'progress at a terminal' script; then shows_progress; note $? './rerun shows progress at a terminal'; fi
asks_for_rerun
note $? './rerun asks rt each time'
runs_nothing 'no rt on PATH' without_the_kit "$root/rerun" "$root/$example_hex"
note $? './rerun without the kit'
ln -sf "$root/rerun" "$work/link_to_rerun"
(cd / && "$work/link_to_rerun" "$root/$example_hex" | grep -q '^ended at BREAK after 4 ticks, rule source$')
note $? './rerun through a link, from another folder'
./rerun $example_hex --help | grep -q '^./rerun FILE.hex \[OPTIONS\] '
note $? './rerun --help'
! ./rerun $example_hex >/dev/full 2>/dev/null
note $? './rerun to a full disk'
says_the_gate
note $? 'the last gate on the release sheet'
keeps_the_gate
note $? '.ci/run keeps what it said'
