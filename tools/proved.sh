# What the commands that run proved programs share. A command reads this file with `here` as the repository's folder and `name` as its own name.
image_bytes=49152 # the longest program that trace takes, and what unhex writes
text_most=1048576 # the longest text that unhex and rerun take
crate_seconds=30  # what a crate takes to prove, on two cores, with nothing beside it; 22 took 12 min 51 s with a gate on two others

stop() { # TEXT: says why nothing is run
    printf '%s\n' "$name: $*" >&2
    exit 1
}

wrong() { # TEXT: says in one line what to do, where the command was used wrongly
    printf '%s\n' "$name: $*" >&2
    exit 2
}

plain_file() { # FILE WHAT: stops where it cannot be read
    [ -e "$1" ] || wrong "there is no file $1; give the name of a $2"
    [ ! -d "$1" ] || wrong "$1 is a folder; give the name of a $2"
    [ -r "$1" ] || wrong "cannot read $1; give a $2 that can be read"
}

copy() { # FILE WHAT BYTES COPY: so many of its bytes into $work, so that all that reads it reads the same
    head -c "$3" 2>/dev/null <"$1" >"$work/$4" || wrong "cannot read $1; give a $2 that can be read"
}

is_hex() { # FILE: by its name
    case $1 in
    *.[hH][eE][xX] | *.[iI][hH][eE][xX] | *.[iI][hH][xX]) ;;
    *) return 1 ;;
    esac
}

open() { # FILE: makes it standard input
    [ ! -d "$1" ] || stop "$1 is a folder"
    [ -r "$1" ] || stop "cannot read $1"
    exec <"$1"
}

prove() { # PROGRAM...: brings them up to date, or stops; makes the folder $work
    find_kit
    make_work
    bring_up "$@"
}

find_kit() { # stops where there is none
    command -v rt >/dev/null || stop "the Rattle kit is not there: no rt on PATH"
}

make_work() { # the folder $work, which goes when the command ends
    work=$(mktemp -d) || exit 1
    trap 'rm -rf "$work"' EXIT
    trap 'exit 1' HUP INT TERM
}

bring_up() { # PROGRAM...: proves and builds what has changed, or stops; the first time takes long, and is announced
    needed "$@" >"$work/crates"
    crates=$(wc -l <"$work/crates")
    for program in "$@"; do
        [ -x "$(built "$program")" ] || { echo "$name: this first time $((crates)) crates are proved and the program is built, which takes about $(((crates * crate_seconds + 59) / 60)) minutes" >&2 && break; }
    done
    for program in "$@"; do
        check "$program" || stop "not proved, so nothing is run"
    done
}

needed() { # PROGRAM...: the crates of crates.txt that they are made of, themselves too, a line each, in the order in which rt proves them
    awk -v programs="$*" '
        { sub(/#.*/, "") }
        /:/ { crate = $0; sub(/[ :].*/, "", crate); sub(/^[^:]*:/, ""); uses[crate] = $0 }
        function visit(crate,    below, count, i) {
            if (!(crate in uses) || crate in seen) return
            seen[crate] = 1
            count = split(uses[crate], below, " ")
            for (i = 1; i <= count; i++) visit(below[i])
            print crate
        }
        END { count = split(programs, crates, " "); for (i = 1; i <= count; i++) visit(crates[i]) }' "$here/crates.txt"
}

built() { # PROGRAM: the file that rt builds
    echo "$here/crates/$1/out/$1"
}

check() { # PROGRAM: what rt says is shown where it proves something or fails; what is up to date it runs, here on nothing
    {
        (cd "$here/crates/$1" && rt run "$1" </dev/null 2>&1 >/dev/null)
        echo $? >"$work/status"
    } | show_proofs >&2
    [ "$(cat "$work/status")" = 0 ]
}

show_proofs() { # what rt says, on standard input: of the crates in $work/crates the number of each that is proved now, and all that is no success
    while IFS= read -r line; do
        case $line in
        'rt: chose --jobs '*' for '*) crate=${line##* } began=$(date +%s) ;;
        'logic=proved '*) echo "$name: $(sed -n "/^$crate\$/=" "$work/crates") of $((crates)): $crate proved ($(($(date +%s) - began)) s)" ;;
        'rt: nothing has changed since '* | 'rt: running out/'* | 'rt: '*': begins with what a check kept in '* | 'rt: waiting for another rt '* | *': proved') ;;
        'logic '* | 'only='* | 'statements '* | 'library '*': modules loaded='* | 'crate '*': modules loaded='* | 'axioms '* | 'linked '* | *': note: '* | 'note: no function with a body '* | 'note: only the first of '* | 'so far: '*' functions checked'*) ;;
        *) printf '%s\n' "$line" ;;
        esac
    done
}

run() { # PROGRAM: as rt runs it
    "$(built "$1")"
}

read_hex() { # FILE: the HEX file on standard input, which messages call FILE, into $work/image; stops where it is refused
    run unhex >"$work/image" || stop "the program unhex ended with status $?"
    [ "$(wc -c <"$work/image")" = "$image_bytes" ] || stop "$1: $(explained <"$work/image")"
}

explained() { # what unhex says, each refusal with what it means
    sed -e '/^refused-50 /s/$/: a character that does not belong in a HEX file/' \
        -e '/^refused-51 /s/$/: the length of the line is wrong, or an end record has data/' \
        -e '/^refused-52 /s/$/: the sum at the end of the line does not fit its bytes/' \
        -e '/^refused-53 /s/$/: a record of another type than 00 and 01/' \
        -e "/^refused-54 /s/\$/: a byte at address $image_bytes or above/" \
        -e '/^refused-55 /s/$/: an address below the end of the line before/' \
        -e '/^refused-56 /s/$/: the end record is missing, or a line stands behind it/'
}

word() { # NUMBER: its two bytes, high byte first
    printf "\\$(printf %o $(($1 / 256)))\\$(printf %o $(($1 % 256)))"
}

value() ( # TEXT MOST: prints the number that TEXT says, in decimal; fails where it says none, or one above MOST
    case $1 in
    0[xX]*) prefix=0x other='*[!0-9a-fA-F]*' ;;
    *) prefix='' other='*[!0-9]*' ;;
    esac
    digits=${1#0[xX]}
    while [ "$digits" != "${digits#0?}" ]; do digits=${digits#0}; done # a 0 in front would make it octal
    case $digits in
    '' | $other | ???????????*) exit 1 ;;
    esac
    [ $(($prefix$digits)) -le "$2" ] && echo $(($prefix$digits))
)
