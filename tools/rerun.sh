# What ./rerun and firmware/index share: the program `rerun` (docs/RERUN.md), driven in steps. Read behind tools/proved.sh, with `name` as the command's name.
# The folder $work has a run's texts and data as `hex`, `schedule` and `data`; what the last whole step of a run wrote is `RULE.result`.
step=$(value "${RERUN_STEP:-50000000}" 4294967295) # ticks of a step, about a tenth of a second; tests take smaller ones by RERUN_STEP
[ "${step:-0}" -gt 0 ] || step=50000000
data_most=65536
broken='' # yes once Ctrl-C was pressed

spaced() ( # NUMBER: with its thousands separated
    left=$1 said=''
    while [ ${#left} -gt 3 ]; do
        said=,${left#"${left%???}"}$said
        left=${left%???}
    done
    echo "$left$said"
)

take() { # FILE WHAT MOST COPY: copies it into $work, so that what is run is what is hashed
    copy "$1" "$2" $(($3 + 1)) "$4"
    [ "$(wc -c <"$work/$4")" -le "$3" ] || wrong "$1 is too long; a $2 has at most $(spaced "$3") bytes"
}

as_path() { # FILE: its name, such that no command takes it for an option
    case $1 in
    -*) printf '%s\n' "./$1" ;;
    *) printf '%s\n' "$1" ;;
    esac
}

check_out() { # OPTION FILE READ...: stops where FILE cannot be written, or is one of those that are read; makes the temporary $FILE.$$ beside it
    option=$1 target=$2
    shift 2
    [ ! -d "$target" ] || wrong "$option $target is a folder; give the name of a file"
    [ ! -e "$target" ] || { [ -f "$target" ] && [ -w "$target" ]; } || wrong "$option $target cannot be written; give another file"
    for other in "$@"; do
        [ -z "$other" ] || [ ! "$target" -ef "$other" ] || wrong "$option $target would overwrite what is read; give another file"
    done
    (set -C && : >"$target.$$") 2>/dev/null || wrong "$option $target cannot be written there; give a file in a folder that can be written"
}

long() { # NUMBER: its four bytes, high byte first
    word $(($1 / 65536)) && word $(($1 % 65536))
}

make_head() { # what all steps begin with: the lengths of texts and data
    data_bytes=$(wc -c <"$work/data")
    { long "$(wc -c <"$work/hex")" && long "$(wc -c <"$work/schedule")" && long "$data_bytes"; } >"$work/head"
}

make_state() { # RULE SP: of a run that has not begun: no tick, no entry, a core of zeros but for SP and the rule's bit, and the data
    case $1 in
    chip) bit='\004' ;;
    *) bit='\000' ;;
    esac
    { head -c 43 /dev/zero && word "$2" && printf "$bit" && cat "$work/data"; } >"$work/state"
}

number_of() { # BYTE BYTE BYTE BYTE: the number that they are, high byte first
    echo $(((($1 * 256 + $2) * 256 + $3) * 256 + $4))
}

take_step() { # RULE BUDGET: from $work/state on; leaves RULE.result, the next state, and in $answer, $ticks and $entered what it says. Fails where it was broken off
    { cat "$work/head" && long "$2" && cat "$work/state" "$work/hex" "$work/schedule"; } | run rerun >"$work/output" || {
        ended=$?
        [ -z "$broken" ] || return 1
        stop "the program rerun ended with status $ended"
    }
    set -- $(trap '' INT && settle "$1")
    case ${1-} in
    0) take_head "$@" && return ;;
    2) wrong "$hex_name: $(hex_fault "$2" $(number_of "$3" "$4" "$5" "$6"))" ;;
    3) wrong "$schedule_name: line $(number_of "$3" "$4" "$5" "$6"): $(schedule_fault "$2"); correct that line" ;;
    esac
    [ -z "$broken" ] || return 1
    stop 'the program rerun did not take its input'
}

settle() { # RULE: prints the first bytes of the output; that of a run becomes RULE.result, and its state the next
    result=$1 bytes=$(od -An -v -tu1 -N 10 "$work/output")
    set -- $bytes
    [ "$1" != 0 ] || {
        take_head "$@"
        mv "$work/output" "$work/$result.result"
        stretch "$result" 2 $((46 + 4 * entered + data_bytes)) >"$work/state"
    }
    echo $bytes
}

take_head() { # BYTES...: sets $answer, $ticks and $entered to what the first ten bytes of a result say
    answer=$2 ticks=$(((($3 * 256 + $4) * 256 + $5) * 256 + $6)) entered=$(((($7 * 256 + $8) * 256 + $9) * 256 + ${10}))
}

read_result() { # RULE: the same of its result
    take_head $(stretch "$1" 0 10 | od -An -v -tu1)
}

stretch() { # RULE FROM LENGTH: so many bytes of its result
    tail -c "+$(($2 + 1))" "$work/$1.result" | head -c "$3"
}

take_steps() { # RULE SP BUDGET: a whole run, or what was done of it when it was broken off; the first step has no tick, and only reads the texts
    make_state "$1" "$2"
    take_step "$1" 0 || return
    began=$(date +%s)
    while ! is_over "$3" && [ -z "$broken" ]; do
        next=$((ticks + step))
        [ "$next" -le "$3" ] || next=$3
        take_step "$1" "$next" || break
        show_progress "$1" "$3"
    done
    erase_progress
}

is_over() { # BUDGET: whether the run has ended
    [ "$answer" != 24 ] || [ "$ticks" -ge "$1" ]
}

show_progress() { # RULE BUDGET: at a terminal, in a line that is written over
    [ -t 2 ] || return 0
    seconds=$(($(date +%s) - began)) speed=''
    [ "$seconds" -lt 2 ] || speed=", $(spaced $((ticks / seconds))) a second"
    printf '\r\033[K%s: %s of %s ticks under %s%s' "$name" "$(spaced "$ticks")" "$(spaced "$2")" "$1" "$speed" >&2
}

erase_progress() {
    [ ! -t 2 ] || printf '\r\033[K' >&2
}

hex_fault() { # NUMBER LINE: what the program says of a HEX text, and what to do
    case $1 in
    53) remedy='avr-objcopy --set-start 0 leaves out type 03, srec_cat -address-length=2 type 04' ;;
    54) remedy='link the program below that' ;;
    *) remedy='make the file again, as Intel HEX' ;;
    esac
    echo "refused-$1 at line $2" | explained | sed "s/\$/; $remedy/"
}

schedule_fault() { # NUMBER: what the program says of a wrong line
    case $1 in
    1) echo "no 'TICK VECTOR', which are two numbers of at most eight digits, decimal or as 0x10, with blanks between; # begins a remark" ;;
    2) echo 'the tick is 0, or above 16,777,215' ;;
    3) echo 'the tick is not above the one before' ;;
    4) echo 'the vector is above 65,535' ;;
    *) echo 'a schedule has at most 65,536 records' ;;
    esac
}

ending() { # ANSWER: how a run ended, by 01's table
    case $1 in
    22) echo 'ended at BREAK' ;;
    23) echo 'ended at PC 65,535' ;;
    24) echo 'ended at its budget' ;;
    1) echo "refused with 1: opcode, a second word the instruction uses, the word to be skipped, or an LPM byte isn't wholly in program" ;;
    2) echo 'refused with 2: CALL, LDS, STS at PC 65,534; taken skip at PC 65,534, or at 65,533 over a two-word instruction' ;;
    3) echo 'refused with 3: entry, CALL, RCALL, ICALL with SP below 2; RET, RETI with SP above 65,533' ;;
    4) echo "refused with 4: a data byte needed isn't in data" ;;
    5) echo 'refused with 5: busy above 4' ;;
    *) echo 'no result' ;;
    esac
}
