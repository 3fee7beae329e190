# Tries HEX files: what unhex makes of those in tests/hex, of the firmware's, and of avr-objcopy's and srec_cat's where these are there; then ./unhex and ./trace FILE.hex.
# Read by tests/run behind tests/trace.sh, and uses its functions.
here=$root
. tools/proved.sh
known=$work/known # a program of all the bytes that an image has
firmware=firmware/heat_index.hex
cr=$(printf '\r')

known_bytes() { # no two stretches of 256 are the same
    printf "$(awk 'BEGIN { for (i = 0; i < 49152; i++) printf "\\%03o", (i * 7 + int(i / 256)) % 256 }')"
}

part() { # FROM TO: those of the known bytes
    head -c "$2" "$known" | tail -c "+$(($1 + 1))"
}

blank() { # NUMBER: so many bytes 0xFF
    head -c "$1" /dev/zero | tr '\0' '\377'
}

outcome() { # what unhex printed, as tests/hex/expected has it
    if [ "$(wc -c <"$work/printed")" != "$image_bytes" ]; then
        head -n 1 "$work/printed"
        return
    fi
    od -An -v -tx1 "$work/printed" | awk 'BEGIN { printf "image"; end = -1 }
        { for (i = 1; i <= NF; i++) { if ($i != "ff") { if (at != end) printf ", %04x:", at; printf " %s", $i; end = at + 1 }; at++ } }
        END { print "" }'
}

as_expected() { # CASE
    run unhex <"tests/hex/$1.hex" >"$work/printed"
    [ "$(outcome)" = "$(sed -n "s/^$1  *//p" tests/hex/expected)" ]
}

as_the_bin() { # NAME: of the firmware: its bytes, and 0xFF behind them
    bytes=$(wc -c <"firmware/$1.bin")
    { cat "firmware/$1.bin" && blank $((image_bytes - bytes)); } >"$work/image"
    run unhex <"firmware/$1.hex" | cmp -s - "$work/image"
}

lines_of_no_bytes() { # NUMBER: a file of 1,048,572 bytes that says nothing, so many of its lines with a CR too
    awk -v more="$1" 'BEGIN { for (i = 0; i < 87380; i++) printf ":0000000000%s\n", i < more ? "\r" : ""; print ":00000001FF" }'
}

longest_file() { # 1,048,576 bytes are read, and one more is not
    lines_of_no_bytes 4 | run unhex >"$work/printed"
    [ "$(outcome)" = image ] || return 1
    lines_of_no_bytes 5 | run unhex >"$work/printed"
    [ "$(outcome)" = 'too long: a file has at most 1,048,576 bytes' ]
}

objcopy() { # BYTES OPTIONS...: avr-objcopy's file of them; its lines end in CR LF
    bytes=$1
    shift
    avr-objcopy -I binary -O ihex "$@" "$bytes" "$work/objcopy.hex" && cat "$work/objcopy.hex"
}

start_at_0() { # COMMAND...: its file through the remedy for type 03
    "$@" >"$work/start.hex" && avr-objcopy -I ihex -O ihex --set-start 0 "$work/start.hex" && cat "$work/start.hex"
}

srec() { # OPTIONS...: srec_cat's file of the known bytes, filters first
    srec_cat "$known" -binary "$@" -o - -intel -address-length=2
}

with_cr_lf() { # COMMAND...
    "$@" | sed "s/\$/$cr/"
}

with_lf() { # COMMAND...
    "$@" | tr -d '\r'
}

in_small_letters() { # COMMAND...
    "$@" | tr A-F a-f
}

without_last_lf() { # COMMAND...
    printf %s "$("$@")"
}

reads() { # IMAGE COMMAND...: unhex makes the image of the file that the command prints
    image=$1
    shift
    "$@" >"$work/made.hex" && run unhex <"$work/made.hex" | cmp -s - "$image"
    note $? "unhex on the file of: $*"
}

refuses() { # TEXT COMMAND...: unhex says TEXT of the file that the command prints
    text=$1
    shift
    "$@" >"$work/made.hex" && run unhex <"$work/made.hex" >"$work/printed" && [ "$(outcome)" = "$text" ]
    note $? "unhex on the file of: $*"
}

make_images() { # what files with gaps have to give
    known_bytes >"$known"
    part 0 1000 >"$work/few"
    { blank 4660 && part 0 1000 && blank 43492; } >"$work/few_at_1234"
    { part 0 256 && blank 256 && part 512 49152; } >"$work/gap"
    { blank 32768 && part 0 4096 && blank 12288; } >"$work/page_at_8000"
}

try_objcopy() {
    reads "$known" objcopy "$known"
    reads "$known" with_lf objcopy "$known"
    reads "$known" in_small_letters objcopy "$known"
    reads "$work/few_at_1234" start_at_0 objcopy "$work/few" --change-addresses 0x1234
    refuses 'refused-53 at line 3073' objcopy "$known" --set-start 0x100
    reads "$known" start_at_0 objcopy "$known" --set-start 0x100
}

try_srec_cat() {
    for bytes in 1 2 7 16 32 100 254 255; do
        reads "$known" srec -obs=$bytes
    done
    reads "$known" with_cr_lf srec -obs=1
    reads "$known" in_small_letters srec -obs=255
    reads "$known" without_last_lf srec
    reads "$work/gap" srec -exclude 0x100 0x200
    reads "$work/gap" in_small_letters with_cr_lf srec -exclude 0x100 0x200 -obs=3
    reads "$work/gap" srec -exclude 0x100 0x200 -fill 0xFF 0 0xC000
    reads "$work/page_at_8000" srec -crop 0 0x1000 -offset 0x8000
    refuses 'refused-53 at line 1' srec_cat "$known" -binary -o - -intel
}

try_unhex() { # the command
    ./unhex $firmware | cmp -s - "$work/image"
    note $? './unhex on a file'
    ./unhex <$firmware | cmp -s - "$work/image"
    note $? './unhex from standard input'
    ./unhex --help | grep -q '^./unhex FILE.hex > IMAGE '
    note $? './unhex --help'
    runs_nothing 'standard input: refused-56 at line 1' ./unhex </dev/null
    note $? './unhex on nothing'
    runs_nothing 'cannot read no_such_file' ./unhex no_such_file
    note $? './unhex on no file'
    runs_nothing 'no such option' ./unhex --hex
    note $? './unhex with a wrong option'
    runs_nothing 'one HEX file' ./unhex $firmware $firmware
    note $? './unhex on two files'
    lines_of_no_bytes 5 >"$work/long.hex"
    runs_nothing 'too long: a file has at most 1,048,576 bytes' ./unhex "$work/long.hex"
    note $? './unhex on a file that is too long'
    ! ./unhex $firmware >/dev/full 2>/dev/null
    note $? './unhex to a full disk'
    runs_nothing 'no rt on PATH' without_the_kit "$root/unhex" "$root/$firmware"
    note $? './unhex without the kit'
}

says_why() { # CASE MEANING: ./unhex and ./trace name the file, the refusal with its line, and what it means
    why="tests/hex/$1.hex: $(sed -n "s/^$1  *//p" tests/hex/expected): $2"
    runs_nothing "unhex: $why" ./unhex "tests/hex/$1.hex" && runs_nothing "trace: $why" ./trace "tests/hex/$1.hex"
    note $? "what is said of tests/hex/$1.hex"
}

try_meanings() {
    says_why character 'a character that does not belong'
    says_why odd_digits 'the length of the line is wrong'
    says_why sum 'the sum at the end of the line'
    says_why type_03 'a record of another type than 00 and 01'
    grep -q -e '--set-start 0 .*-address-length=2 ' "$work/said"
    note $? 'the remedy for types 03 and 04'
    says_why outside 'a byte at address 49152 or above'
    says_why falls 'an address below the end of the line before'
    says_why no_end 'the end record is missing'
}

asks_for_both() { # rt is asked for trace and unhex, and where one is not proved nothing is run
    stand_in 0 "$unchanged"
    prints tests/trace/heat_index.in with_stand_in ./trace $firmware && asked 'run trace run unhex' || return 1
    stand_in 0 "$unchanged"
    with_stand_in ./unhex $firmware >/dev/null && asked 'run unhex' || return 1
    stand_in 1 'rt: the library intel_hex did not build, so nothing above it was checked'
    runs_nothing 'intel_hex did not build' with_stand_in ./trace $firmware && runs_nothing 'intel_hex did not build' with_stand_in ./unhex $firmware
}

starts_with() { # SP BUDGET: ./trace takes 16 ticks with SP at 0x1234
    ./trace $firmware "$@" >"$work/printed" && [ "$(wc -l <"$work/printed")" = 16 ] && head -n 1 "$work/printed" | grep -q ' 1234$'
}

knows_names() { # a HEX file by the end of its name
    for end in hex HEX ihex Ihex ihx IHX; do
        cp $firmware "$work/named.$end"
        ./trace "$work/named.$end" 0x3FFF 1 | grep -q '^1 0000 ran ' || return 1
    done
}

try_trace() { # with a HEX file
    prints tests/trace/heat_index.in ./trace $firmware
    note $? './trace on a HEX file'
    starts_with 4660 16
    note $? './trace with SP and budget in decimal'
    starts_with 0x1234 0X10
    note $? './trace with SP and budget as 0x..'
    starts_with 04660 0x0010
    note $? './trace with zeros in front of SP and budget'
    knows_names
    note $? './trace knows a HEX file by its name'
    for text in '' 0x 12a 0xG -1 65536 0x10000 18446744073709551617; do
        runs_nothing "SP is a number from 0 to 65,535, .*; '$text' is none" ./trace $firmware "$text"
        note $? "./trace with SP '$text'"
        runs_nothing "BUDGET is a number from 0 to 65,535, .*; '$text' is none" ./trace $firmware 0 "$text"
        note $? "./trace with budget '$text'"
    done
    runs_nothing 'the budget is 0' ./trace $firmware 0x3FFF 0
    note $? './trace on a HEX file with budget 0'
    runs_nothing 'SP and budget and nothing else' ./trace $firmware 1 2 3
    note $? './trace with three numbers'
    runs_nothing 'SP and budget only behind a HEX file' ./trace "$example" 0x3FFF
    note $? './trace with SP behind an image'
    runs_nothing 'cannot read no_such_file.hex' ./trace no_such_file.hex
    note $? './trace on no HEX file'
    ./trace --help | grep -q '^./trace FILE.hex \[SP \[BUDGET\]\] '
    note $? './trace --help on HEX files'
}

at_a_terminal() { # TEXT COMMAND: the command, typed by a person, ends with 1 and says TEXT
    script -qec "$2" /dev/null </dev/null >"$work/said"
    [ $? = 1 ] && grep -q -e "$1" "$work/said"
    note $? "$2, at a terminal"
}

try_terminal() {
    at_a_terminal 'no image; ./trace --help' ./trace
    at_a_terminal 'no HEX file; ./unhex --help' './unhex >/dev/null'
    at_a_terminal 'FILE.hex > IMAGE' "./unhex $firmware"
}

{ build trace && build unhex; } >/dev/null 2>&1 # so that no case has to prove anything
for case in tests/hex/*.hex; do
    case=${case#tests/hex/}
    as_expected "${case%.hex}"
    note $? "unhex on tests/hex/$case"
done
longest_file
note $? 'unhex on the longest file'
for image in heat_index_timer crc sort heat_index; do
    as_the_bin $image
    note $? "unhex on firmware/$image.hex"
done
try_unhex
try_meanings
asks_for_both
note $? './trace and ./unhex ask rt each time'
try_trace
if there 'commands at a terminal' script; then try_terminal; fi
make_images
if there 'files of avr-objcopy' avr-objcopy; then try_objcopy; fi
if there 'files of srec_cat' srec_cat; then try_srec_cat; fi
