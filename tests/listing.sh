# Tries ./listing: the example of 02's W8, both images, how a program may end, HEX files, every mistake; the program `list` on all words with three second words each, beside avr-objdump where that is there; and that the encoder gives these words back (crates/encoding).
# Read by tests/run behind tests/trace.sh, tests/hex.sh and tests/rerun.sh, and uses their functions.
listed=$work/listed.bin
example_bytes='\005\340\016\224\043\001\331\367\001\000\230'

listed_as() { # EXPECTED COMMAND...: prints that file, says nothing beside it, and ends with 0
    expected=$1
    shift
    "$@" >"$work/printed" 2>"$work/said" && cmp -s "$work/printed" "$expected" && [ ! -s "$work/said" ]
}

lists() { # BYTES TEXT: the bytes, as printf takes them, have the listing TEXT
    printf "$1" >"$listed" && printf "$2" >"$work/lines" && listed_as "$work/lines" ./listing "$listed"
    note $? "./listing on the bytes $1"
}

lists_nothing() { # FILE: prints nothing, says why, and ends with 0
    ./listing "$1" >"$work/printed" 2>"$work/said" && [ ! -s "$work/printed" ] && [ "$(cat "$work/said")" = "listing: $1 has no byte, so there is nothing to list" ]
    note $? "./listing $1"
}

same_listing() { # BYTES HEX: of a file of bytes and of a HEX file
    run list <"$1" >"$work/lines" && listed_as "$work/lines" ./listing "$2"
}

lists_hex() { # BYTES COMMAND...: the HEX file that the command prints is listed as the file of its bytes
    program=$1
    shift
    "$@" >"$work/made.hex" && same_listing "$program" "$work/made.hex"
    note $? "./listing on the file of: $*"
}

expected_bytes() { # CASE: those that tests/hex/expected says of it, up to the last
    printf "$(sed -n "s/^$1  *image//p" tests/hex/expected | awk '
        function number(digits,    i, n) { for (i = 1; i <= length(digits); i++) n = n * 16 + index("0123456789abcdef", substr(digits, i, 1)) - 1; return n }
        {
            for (i = 2; i <= NF; i++) {
                if ($i !~ /:/) { printf "\\%03o", number(substr($i, 1, 2)); at++ }
                else while (at < number(substr($i, 1, 4))) { printf "\\377"; at++ }
            }
        }')"
}

joined_words() { # of the listing on standard input: the bytes that they are
    printf "$(awk '
        function byte(digits) { return sprintf("\\%03o", (index(hex, substr(digits, 1, 1)) - 1) * 16 + index(hex, substr(digits, 2, 1)) - 1) }
        BEGIN { hex = "0123456789ABCDEF" }
        {
            count = split(substr($0, 6, 9), words, " ")
            for (i = 1; i <= count; i++) printf "%s%s", (length(words[i]) == 4 ? byte(substr(words[i], 3)) : ""), byte(words[i])
        }')"
}

try_images() {
    for image in heat_index heat_index_timer; do
        listed_as tests/listing/$image.txt ./listing firmware/$image.hex
        note $? "./listing firmware/$image.hex"
        listed_as tests/listing/$image.txt ./listing firmware/$image.bin
        note $? "./listing firmware/$image.bin"
        joined_words <tests/listing/$image.txt | cmp -s - firmware/$image.bin
        note $? "the words of the listing of $image are the image"
    done
}

try_ends() { # a first word whose second is missing, wholly or by half, a lone byte, and a second word that would be an instruction
    lists '\016\224' '0000 940E      .word 0x940E\n'
    lists '\016\224\043' '0000 940E      .word 0x940E\n0001 23        .byte 0x23\n'
    lists '\230' '0000 98        .byte 0x98\n'
    lists '\016\224\016\224\230\225' '0000 940E 940E CALL 0x00940E\n0002 9598      BREAK\n'
    : >"$work/none.bin"
    lists_nothing "$work/none.bin"
}

longest() { # 131,072 bytes are listed, and one more is bad input
    head -c 131072 /dev/zero >"$listed"
    ./listing "$listed" >"$work/printed" && [ "$(wc -l <"$work/printed")" = 65536 ] && [ "$(tail -n 1 "$work/printed")" = 'FFFF 0000      NOP' ] || return 1
    head -c 131073 /dev/zero >"$listed"
    ./listing "$listed" >"$work/printed" 2>"$work/said"
    [ $? = 1 ] && [ "$(cat "$work/printed")" = 'bad input' ] && [ "$(wc -l <"$work/said")" = 1 ] && grep -q 'too long; give a program of at most 131,072 bytes' "$work/said"
}

knows_hex_names() { # as ./trace does
    for end in hex HEX ihex Ihex ihx IHX; do
        cp firmware/heat_index.hex "$work/named.$end"
        ./listing "$work/named.$end" | cmp -s - tests/listing/heat_index.txt || return 1
    done
}

try_hex_files() { # those of tests/hex that have bytes, up to the last one; those that have none, and those that are refused
    for case in $(sed -n 's/^\([a-z_]*\)  *image,.*/\1/p' tests/hex/expected); do
        expected_bytes "$case" >"$listed" && same_listing "$listed" "tests/hex/$case.hex"
        note $? "./listing tests/hex/$case.hex"
    done
    printf "$example_bytes" >"$listed"
    lists_hex "$listed" in_small_letters with_cr_lf hex_file 05E00E942301D9F7010098
    lists_nothing tests/hex/no_data.hex
    for case in character type_03 falls no_end; do
        runs_nothing "listing: tests/hex/$case.hex: $(sed -n "s/^$case  *//p" tests/hex/expected): " ./listing "tests/hex/$case.hex"
        note $? "./listing tests/hex/$case.hex"
    done
    runs_nothing 'too long: a file has at most 1,048,576 bytes' ./listing "$work/long.hex"
    note $? './listing on a HEX file that is too long'
}

try_objcopy_listed() {
    lists_hex firmware/heat_index.bin objcopy firmware/heat_index.bin
    lists_hex firmware/heat_index.bin in_small_letters with_lf objcopy firmware/heat_index.bin
    { blank 4660 && part 0 1000; } >"$listed"
    lists_hex "$listed" start_at_0 objcopy "$work/few" --change-addresses 0x1234
}

try_srec_cat_listed() {
    lists_hex "$known" srec
    { part 0 256 && blank 256 && part 512 1001; } >"$listed"
    lists_hex "$listed" in_small_letters with_cr_lf srec -crop 0 1001 -exclude 0x100 0x200 -obs=7
    { blank 32768 && part 0 4096; } >"$listed"
    lists_hex "$listed" srec -crop 0 0x1000 -offset 0x8000
}

try_listing_use() {
    used_wrongly 'no file; ./listing --help' ./listing
    note $? './listing with no file'
    used_wrongly 'one file at a time, please: README.md or VERSION' ./listing README.md VERSION
    note $? './listing on two files'
    used_wrongly 'no such option: --hex' ./listing --hex firmware/heat_index.hex
    note $? './listing with a wrong option'
    used_wrongly 'there is no file no_such_file.hex; give the name' ./listing no_such_file.hex
    note $? './listing on no file'
    used_wrongly 'tests is a folder; give the name' ./listing tests
    note $? './listing on a folder'
    used_wrongly 'cannot read /proc/self/mem; give' ./listing /proc/self/mem
    note $? './listing on a file that cannot be read'
    cp firmware/heat_index.hex "$work/-named.hex"
    (cd "$work" && listed_as "$root/tests/listing/heat_index.txt" "$root/listing" ./-named.hex)
    note $? './listing on a file whose name begins with -'
    ./listing firmware/heat_index.hex --help | grep -q '^./listing FILE.hex  '
    note $? './listing --help'
}

asks_for_list() { # rt is asked each time, for unhex too where there is a HEX file; where something is not proved nothing is listed
    stand_in 0 "$unchanged"
    with_stand_in ./listing firmware/heat_index.hex >/dev/null && asked 'run list run unhex' || return 1
    stand_in 0 "$unchanged"
    with_stand_in ./listing firmware/heat_index.bin >/dev/null && asked 'run list' || return 1
    stand_in 1 'rt: the library listing did not build, so nothing above it was checked'
    runs_nothing 'listing did not build' with_stand_in ./listing firmware/heat_index.hex && runs_nothing 'listing did not build' with_stand_in ./listing firmware/heat_index.bin
}

half_of_words() { # HALF SECOND: 32,768 of all words, each with the second word behind it; mixed, so that relative targets go over both ends
    printf "$(awk -v half="$1" -v second="$2" '
        function bytes(word) { return sprintf("\\%03o\\%03o", word % 256, int(word / 256)) }
        BEGIN { for (i = half * 32768; i < (half + 1) * 32768; i++) printf "%s%s", bytes(i * 40503 % 65536), bytes(second) }')"
}

come_back() { # SECOND COUNT: as many of all words, with this one behind them, and of the words behind them, come back from the encoder
    back=0
    for half in 0 1; do back=$((back + $(half_of_words $half "$1" | run encoding))); done
    [ "$back" = "$2" ]
}

as_objdump() { # FILE: of a program; -z, since zeros are left out otherwise. avr:103 is firmware/build's avrxmega3; all machines but avr:100, with its short LDS and STS, read words alike
    avr-objdump -D -z -b binary -m avr:103 "$1" | awk -f tests/objdump.awk >"$work/dumped"
    run list <"$1" >"$work/printed" && [ -s "$work/printed" ] && cmp "$work/printed" "$work/dumped"
}

all_as_objdump() { # SECOND: all words with this one behind them, in two programs of 131,072 bytes
    for half in 0 1; do
        half_of_words $half "$1" >"$listed" && [ "$(wc -c <"$listed")" = 131072 ] && as_objdump "$listed" || return 1
    done
}

try_objdump() {
    for second in 0 65535 4660; do quietly "all words with $second behind them, beside avr-objdump" all_as_objdump $second; done
    for image in heat_index heat_index_timer; do quietly "firmware/$image.bin beside avr-objdump" as_objdump firmware/$image.bin; done
}

{ build list && build encoding; } >/dev/null 2>&1 # so that no case has to prove anything
printf "$example_bytes" >"$listed"
listed_as tests/listing/example.txt run list <"$listed"
note $? 'list on the example, from standard input'
listed_as tests/listing/example.txt ./listing "$listed"
note $? './listing on the example' # its third line is not the issue's: from word 3 the target wraps to 0xFFFF
joined_words <tests/listing/example.txt | cmp -s - "$listed"
note $? 'the words of the example are its bytes'
try_images
try_ends
longest
note $? './listing on the longest program'
try_hex_files
knows_hex_names
note $? './listing knows a HEX file by its name'
try_listing_use
asks_for_list
note $? './listing asks rt each time'
runs_nothing 'no rt on PATH' without_the_kit "$root/listing" "$root/firmware/heat_index.hex"
note $? './listing without the kit'
ln -sf "$root/listing" "$work/link_to_listing"
(cd / && listed_as "$root/tests/listing/heat_index.txt" "$work/link_to_listing" "$root/firmware/heat_index.hex")
note $? './listing through a link, from another folder'
! ./listing firmware/heat_index.hex >/dev/full 2>/dev/null
note $? './listing to a full disk'
for case in '0 129305' '65535 63769' '4660 129305'; do # 63,769 words are defined; of those behind them NOP and CPSE are, and 0xFFFF is not
    come_back $case
    note $? "words that the encoder gives back, with ${case% *} behind them"
done
if there 'listings of avr-objcopy'\''s files' avr-objcopy; then try_objcopy_listed; fi
if there 'listings of srec_cat'\''s files' srec_cat; then try_srec_cat_listed; fi
if there 'all words beside avr-objdump' avr-objdump; then try_objdump; fi
