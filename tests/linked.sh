# Where the tools are there: the programs of host/c, random programs by runs, by schedules and by ticks (tests/runs.c, tests/schedules.c), the tests and examples of host/rust, other tools on the HEX files that the port writes, and firmware/check, over the
# archive that tools/archive writes.
# The archive is for x86-64. On an Arm machine Debian's cross compiler, its Rust with the library for x86-64 and an emulator stand in (as root, tests/install gets them).
# Read by tests/run.
archive=''
if [ "$(uname -m)" = x86_64 ]; then
    cc=cc ar=ar emulator='' cargo=cargo target='' built=target/cargo/release
else
    cc=x86_64-linux-gnu-gcc ar=x86_64-linux-gnu-ar emulator=qemu-x86_64 cargo=/usr/bin/cargo
    target='--target x86_64-unknown-linux-gnu' built=target/cargo/x86_64-unknown-linux-gnu/release
    export RUSTC=/usr/bin/rustc RUSTDOC=/usr/bin/rustdoc
    export CARGO_TARGET_X86_64_UNKNOWN_LINUX_GNU_LINKER=$cc CARGO_TARGET_X86_64_UNKNOWN_LINUX_GNU_RUNNER=$emulator
fi
export CC=$cc AR=$ar

can_link() { # NAME TOOLS...: whether the tools and the archive are there; it says what is not run and why
    there "$@" $emulator || return 1
    [ "$archive" = made ] || { echo "not run: $1: no archive" && return 1; }
}

make_archive() { # the archive of this code
    quietly tools/archive tools/archive
    [ "$status" = 0 ] && archive=made
}

with_cargo() { # FOLDER WORDS...
    folder=$1
    shift
    quietly "$folder: $*" "$cargo" "$@" --quiet --offline --release $target --manifest-path "$folder/Cargo.toml" --target-dir target/cargo
}

says_first() { # COMMAND...: prints what README says of the first program
    [ "$("$@" tests/hex/example.hex)" = 'answer 22 after 4 ticks, R16 is 5' ]
}

try_first() { # PROGRAM: README's first program on its file, on one with a wrong sum and on none
    quietly "$1" says_first $emulator "$1"
    sed '1s/9551/9550/' tests/hex/example.hex >"$work/wrong_sum.hex"
    runs_nothing "/wrong_sum.hex: refused-52 at line 1$" $emulator "$1" "$work/wrong_sum.hex"
    note $? "$1 on a file with a wrong sum"
    runs_nothing '^no_such_file: cannot be read' $emulator "$1" no_such_file
    note $? "$1 on no file"
}

says_both_rules() { # COMMAND...: prints ADIW's SREG and the sample taken behind SEI under each rule
    [ "$("$@")" = "$(printf 'source: SREG 0C, sample 05\nchip: SREG 14, sample 2A')" ]
}

says_the_foretold() { # COMMAND...: prints what each next tick would answer, with no offer and with one
    [ "$("$@")" = "$(printf 'word %s: %s, with an offer %s\n' 0 18 18 1 18 17 2 18 17 3 16 16 3 22 17)" ]
}

says_the_schedule() { # COMMAND...: prints when each firing of the timer was entered, how the run ended, and the hottest hour
    entries=$(printf 'fired at tick %s: entered at tick %s, %s later\n' 100 380 280 900 900 0 950 966 16 2000 2000 0)
    [ "$("$@")" = "$(printf '%s\n' "$entries" 'fired at tick 9000: not entered' 'answer 22 after 2557 ticks' 'hottest hour 80.35')" ]
}

says_cs_words() { # COMMAND...: prints every number with its words as target/numbers does
    $emulator target/numbers >"$work/numbers" && "$@" | cmp - "$work/numbers"
}

says_what_to_run() { # host/rust, with no archive, names the command that writes it
    said=$(AVR_CORE_LIB=$work/nowhere "$cargo" build --quiet --offline --release $target --manifest-path host/rust/Cargo.toml --target-dir target/cargo 2>&1)
    [ $? != 0 ] && echo "$said" | grep -q 'run tools/archive'
}

make_programs() { # of these lengths, from the bytes of the archive; the other tools take no file without data
    cat target/staticlib/libhost.a target/staticlib/libhost.a >"$work/bytes"
    for length in 1 15 16 17 4096 65535 65536; do
        dd if="$work/bytes" of="$work/$length.program" bs="$length" count=1 2>/dev/null
    done
}

gives_back() { # COMMAND...: each program, written by the port as `written.hex` and read by the command into `back`, is the same again
    for program in "$work"/*.program firmware/*.bin; do
        rm -f "$work/back"
        $emulator "$built/examples/to_hex" <"$program" >"$work/written.hex" && "$@" && cmp "$program" "$work/back" || return 1
    done
}

in_readme() { # FILE: README has it whole, indented
    sed 's/^./    &/' "$1" >"$work/indented"
    awk 'NR == FNR { text = text $0 "\n"; next } { readme = readme $0 "\n" } END { exit index(readme, text) == 0 }' "$work/indented" README.md
    note $? "README on $1"
}

in_readme host/c/first.c
in_readme host/rust/examples/first.rs
make_archive

if there 'host/c as C++' c++; then
    for program in fields first numbers; do
        quietly "host/c/$program.c as C++" c++ -std=c++17 -Wall -Wextra -Wpedantic -Werror -fsyntax-only -Iinclude -x c++ "host/c/$program.c"
    done
fi

if can_link host/c "$cc"; then
    for program in example fields first numbers; do
        quietly "host/c/$program.c" "$cc" -std=c11 -Wall -Wextra -Wpedantic -Werror -Iinclude "host/c/$program.c" target/staticlib/libhost.a -o "target/$program"
    done
    quietly target/example $emulator target/example
    quietly target/fields $emulator target/fields
    try_first target/first
    for program in runs schedules; do
        quietly "tests/$program.c" "$cc" -std=gnu11 -O2 -Wall -Wextra -Werror -Iinclude "tests/$program.c" target/staticlib/libhost.a -o "target/$program"
        quietly "target/$program: against ticks" $emulator "target/$program" 2000 1
    done
fi

if can_link host/rust "$cargo" "$cc"; then
    make_programs
    says_what_to_run
    note $? 'host/rust without the archive'
    with_cargo host/rust test
    with_cargo host/rust build --examples
    try_first "$built/examples/first"
    quietly "$built/examples/rules" says_both_rules $emulator "$built/examples/rules"
    quietly "$built/examples/foretell" says_the_foretold $emulator "$built/examples/foretell"
    quietly "$built/examples/schedule" says_the_schedule $emulator "$built/examples/schedule"
    quietly "$built/examples/numbers" says_cs_words $emulator "$built/examples/numbers"
    runs_nothing 'refused-57' $emulator "$built/examples/to_hex" <"$work/bytes"
    note $? 'to_hex on too long a program'
fi

if can_link 'avr-objcopy on what the port wrote' "$cargo" "$cc" avr-objcopy; then
    quietly 'avr-objcopy on what the port wrote' gives_back avr-objcopy -I ihex -O binary "$work/written.hex" "$work/back"
fi

if can_link 'srec_cat on what the port wrote' "$cargo" "$cc" srec_cat; then
    quietly 'srec_cat on what the port wrote' gives_back srec_cat "$work/written.hex" -intel -o "$work/back" -binary
fi

if can_link firmware/check "$cargo" "$cc" "$ar"; then
    with_cargo firmware/check run
fi
