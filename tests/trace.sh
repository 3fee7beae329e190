# Tries ./trace: what it prints for each case of tests/trace, how it ends, and what it says where it runs nothing. Read by tests/run.
root=$(pwd)
example=$root/tests/trace/example.in
unchanged='rt: nothing has changed since the last proved build, by out/trace.stamp, so nothing is checked now' # what rt says then

build() { # PROGRAM: proves and builds what has changed of it, and runs it on nothing
    (cd "crates/$1" && rt run </dev/null)
}

prints() { # CASE COMMAND...: prints the case's output, says nothing beside it, and ends with 1 where the case is refused; where it runs nothing, it says so
    expected=${1%.in}.out ends=0
    shift
    if [ ! -s "$expected" ]; then
        runs_nothing 'the budget is 0' "$@"
        return
    fi
    grep -q -e '^bad input$' -e ' refused-[0-9]* ' "$expected" && ends=1
    "$@" >"$work/printed" 2>"$work/said"
    [ $? = "$ends" ] && cmp -s "$work/printed" "$expected" && [ ! -s "$work/said" ]
}

runs_nothing() { # TEXT COMMAND...: ends with 1, prints nothing and says TEXT
    text=$1
    shift
    "$@" >"$work/printed" 2>"$work/said"
    [ $? = 1 ] && [ ! -s "$work/printed" ] && grep -q -e "$text" "$work/said"
}

stand_in() { # STATUS TEXT: a program rt that takes its whole input, keeps its words, says TEXT, by `run` on standard error, and ends with STATUS
    mkdir -p "$work/bin" && rm -f "$work/asked"
    printf '#!/bin/sh\ncat >/dev/null\necho "$*" >>"%s"\n[ "$1" != run ] || exec >&2\necho "%s"\nexit %s\n' "$work/asked" "$2" "$1" >"$work/bin/rt"
    chmod +x "$work/bin/rt"
}

asked() { # WORDS: whether the stand-in was asked so, a call behind another
    [ "$(paste -s -d ' ' "$work/asked")" = "$1" ]
}

with_stand_in() { # COMMAND...
    env PATH="$work/bin:$PATH" "$@"
}

asks_each_time() { # rt is asked, and does not get the image
    stand_in 0 "$unchanged"
    prints "$example" with_stand_in ./trace <"$example" && asked 'run trace'
}

shows_a_proof() {
    stand_in 0 'rt: chose --jobs 2 for tracing
logic=proved functions=8'
    with_stand_in ./trace "$example" 2>"$work/said" | cmp -s - "${example%.in}.out" && grep -q 'tracing proved ([0-9]* s)' "$work/said"
}

numbers_proofs() { # each crate that is proved now with its number among all that are needed, and none of the prover's own lines
    stand_in 0 'rt: alu: begins with what a check kept in /tmp/crates/alu
rt: chose --jobs 2 for alu
so far: 0 of 8 functions checked; the verdict comes last
so far: 7 of 8 functions checked
note: only the first of 6 notes on a large solution is printed: the next shows once that one is mended
struct alu::Sum: proved
fn alu::plus: proved
logic antt-project.json: libraries=16 files=2756
statements core: modules loaded=215 checked=0
library basis: modules loaded=10 checked=0
crate alu: modules loaded=0 checked=33
logic=proved functions=8
rt: running out/trace; to give it other input, run that file yourself'
    with_stand_in ./trace "$example" 2>"$work/said" | cmp -s - "${example%.in}.out" && grep -q -x "trace: $(place_of alu trace) of $(crates_of trace): alu proved ([0-9]* s)" "$work/said" && [ "$(wc -l <"$work/said")" = 1 ]
}

crates_of() ( # PROGRAM...: how many crates they are made of, by tools/proved.sh
    here=$root && . tools/proved.sh && echo $(($(needed "$@" | wc -l)))
)

place_of() ( # CRATE PROGRAM: the number that it has among them
    here=$root && . tools/proved.sh && needed "$2" | sed -n "/^$1\$/="
)

counts_crates() ( # each once, behind all that it is made of; what the kit has is not counted
    here=$work/few_crates && mkdir -p "$here" && . tools/proved.sh
    printf '# a list\ntop: csv left right # both\nleft: base\nright: base left\nbase:\nother staticlib: base\n' >"$here/crates.txt"
    [ "$(needed top | tr '\n' ' ')" = 'base left right top ' ] && [ "$(needed left other | tr '\n' ' ')" = 'base left other ' ]
)

announces_the_first() ( # how many crates, and how long that takes, before rt is asked; no word of it once the program is there
    here=$work/few_crates name=first PATH=$work/bin:$PATH && . tools/proved.sh
    mkdir -p "$here/crates/top/out" && stand_in 0 "$unchanged"
    bring_up top 2>"$work/said" && [ "$(cat "$work/said")" = 'first: this first time 4 crates are proved and the program is built, which takes about 2 minutes' ] || exit 1
    : >"$here/crates/top/out/top" && chmod +x "$here/crates/top/out/top"
    bring_up top 2>"$work/said" && [ ! -s "$work/said" ]
)

without_the_kit() { # COMMAND...: with no rt on PATH
    mkdir -p "$work/no_kit"
    for tool in dirname readlink; do ln -sf "$(command -v "$tool")" "$work/no_kit/$tool"; done
    env PATH="$work/no_kit" "$@"
}

build trace >/dev/null 2>&1 # so that no case has to prove anything
for case in tests/trace/*.in; do
    prints "$case" ./trace <"$case"
    note $? "./trace < $case"
    prints "$case" ./trace "$case"
    note $? "./trace $case"
done
asks_each_time
note $? './trace asks rt each time'
shows_a_proof
note $? './trace shows what is proved'
numbers_proofs
note $? './trace numbers what is proved'
counts_crates
note $? 'tools/proved.sh counts the crates of a program'
announces_the_first
note $? 'tools/proved.sh announces the first build'
stand_in 1 'rt: the library tracing did not build, so nothing above it was checked'
runs_nothing 'the library tracing did not build' with_stand_in ./trace "$example"
note $? './trace where something is not proved'
runs_nothing 'no rt on PATH' without_the_kit "$root/trace" "$example"
note $? './trace without the kit'
ln -s "$root/trace" "$work/link"
(cd / && prints "$example" "$work/link" "$example")
note $? './trace through a link, from another folder'
./trace --help 2>&1 | grep -q '^./trace FILE '
note $? './trace --help'
runs_nothing 'cannot read no_such_file' ./trace no_such_file
note $? './trace on no file'
runs_nothing 'is a folder' ./trace tests
note $? './trace on a folder'
runs_nothing 'no such option' ./trace --hex "$example"
note $? './trace with a wrong option'
runs_nothing 'one image' ./trace "$example" "$example"
note $? './trace on two files'
