# Tries the tools of tools/ on small repositories that are made for it. Read by tests/run.
made=$work/made

unpack() { # SAMPLE: makes a repository of one crate from the sample's files, with the list of contracts that it has to hold
    rm -rf "$made"
    mkdir -p "$made/crates/sample/src" "$made/docs"
    echo 'sample staticlib: other' >"$made/crates.txt"
    sed -n "s|^file: \(.*\)/.*|$made/crates/sample/src/\1|p" "$1" | xargs -r mkdir -p
    awk -v src="$made/crates/sample/src/" '/^file: / { out = src $2; next } out { print >out }' "$1"
    tools/contracts list "$made" >"$made/docs/CONTRACTS.md"
}

as_it_says() { # SAMPLE: refused with the faults that the sample names and no other; passed where it names none
    unpack "$1"
    sed -n 's|^fault: |crates/sample/src/|p' "$1" >"$work/faults"
    tools/contracts "$made" >"$work/said"
    status=$?
    [ -s "$work/faults" ] || return "$status"
    [ "$status" = 1 ] && cmp -s "$work/faults" "$work/said"
}

listed_otherwise() {
    unpack tests/contracts/right.sample
    tools/contracts list "$made" | sed 's/next_of x/last_of x/' >"$made/docs/CONTRACTS.md"
    ! tools/contracts "$made" >/dev/null
}

make_crates() ( # `top` uses `code`, `stated` and `proved`, says why it has `typed`, and has `said` only in comments; nobody uses its law
    rm -rf "$made"
    mkdir -p "$made/crates/top/src" "$made/crates/top/proofs/next" "$made/crates/proved/proofs"
    cd "$made" || exit
    printf '# a comment: none\ntop staticlib: code stated proved typed said # typed: a local has its type\nproved: # said\n' >crates.txt
    printf '// said::x\n#![tactic(auto, using(crate::proofs::Named::law))]\nuse code::Core;\nghost use Rattle.stated.specs.State.{reg};\n' >crates/top/src/lib.rt
    printf 'pub law : (x : N) → x ≡ x\n' >crates/top/proofs/Named.antt
    printf 'use Rattle.proved.proofs.Laws.{law}\n' >crates/top/proofs/next/Answers.antt
    printf 'pub mod Unused\npub mod End\n' >crates/top/proofs/Lib.antt
    printf -- '-- use Rattle.said.specs.State.{reg}\npub law : (x : N) → x ≡ x\n' >crates/top/proofs/Unused.antt
    printf 'pub ends : EndsAsPromised\n' >crates/top/proofs/End.antt
    printf 'pub law : (x : N) → x ≡ x\n' >crates/proved/proofs/Laws.antt
)

finds_what_is_unused() {
    make_crates
    printf '%s\n' 'crates.txt: top does not use said' 'crates/top/proofs/Unused.antt: nobody uses it' >"$work/faults"
    tools/dependencies "$made" >"$work/said"
    [ $? = 1 ] && cmp -s "$work/faults" "$work/said"
}

passes_what_is_used() {
    make_crates
    rm "$made/crates/top/proofs/Unused.antt"
    printf 'top: code stated proved\nproved:\n' >"$made/crates.txt"
    tools/dependencies "$made" >"$work/said" && [ ! -s "$work/said" ]
}

make_claims() { # FIELD: a repository whose README names this field, and whose proof inhabits one statement that is claimed and one that is not
    rm -rf "$made"
    mkdir -p "$made/crates/promises/specs" "$made/crates/promises/proofs" "$made/crates/contracts/specs"
    printf 'pub record Demand1 : Type 0 where\n  pub tick : Ticks\n' >"$made/crates/promises/specs/Demands.antt"
    printf 'pub record Requests : Type 0 where\n  pub hex : Hexes\n' >"$made/crates/promises/specs/Requests.antt"
    printf 'pub record Claims : Type 0 where\n  pub trace : Traces\n' >"$made/crates/promises/specs/Claims.antt"
    printf 'pub record Contracts : Type 2 where\n  pub run : run.statement\n' >"$made/crates/contracts/specs/EachContract.antt"
    printf 'pub ticks : Ticks\n\npub unclaimed : Unclaimed\n\npub demand1 : Demand1\n' >"$made/crates/promises/proofs/Demands.antt"
    printf '| a row | `%s`, `target/bin` |\n' "$1" >"$made/README.md"
}

finds_what_is_unclaimed() {
    make_claims Demand1.tock
    printf '%s\n' 'crates/promises/proofs/Demands.antt: Unclaimed is no field of Demands.antt, Requests.antt or Claims.antt' 'README.md: no field Demand1.tock' >"$work/faults"
    tools/claims "$made" >"$work/said"
    [ $? = 1 ] && cmp -s "$work/faults" "$work/said" || return 1
    make_claims Demand1.tick
    sed -i '/unclaimed/d' "$made/crates/promises/proofs/Demands.antt"
    tools/claims "$made" >/dev/null
}

make_sources() { # TEXT SUM: a repository that lists two files by this sum, beside a folder that has one of them with this text
    rm -rf "$made" "$work/shared"
    mkdir -p "$made/docs" "$work/shared"
    printf '%s' "$1" >"$work/shared/01.md"
    printf '| `%s` | `%s` | x |\n' 01.md "$2" 02.md "$2" >"$made/docs/SOURCES.md"
}

holds_sums() {
    sum=$(printf right | sha256sum)
    make_sources right "${sum%% *}"
    tools/sources "$made" >"$work/said" && grep -q 'not there: ../shared/02.md' "$work/said" || return 1
    make_sources wrong "${sum%% *}"
    ! tools/sources "$made" >"$work/said" && grep -q '../shared/01.md is not the file' "$work/said"
}

make_table() { # [NAME]: a repository whose patterns are two, and whose table is right, or, where something is given, has one entry replaced by it
    rm -rf "$made"
    mkdir -p "$made/crates/source_decode/specs" "$made/crates/form_table/src"
    printf '    on "1001_0101_1010_1000" (plain (λ x. WDR)) ∷  -- 1\n    on "0000_11rd_dddd_rrrr" (plain (λ x. ADD (x "d") (x "r"))) ∷  -- 2\n' >"$made/crates/source_decode/specs/RustDecode.antt"
    tools/forms print "$made" | sed "s|^    ADD, // 0x0C?0|    ${1:-ADD}, // 0x0C?0|" >"$made/crates/form_table/src/table.rt"
}

holds_the_table() { # of 4,096 entries one has a mark, and four high bytes are ADD
    make_table
    tools/forms "$made" >/dev/null || return 1
    [ "$(grep -c '^    LOOK_FURTHER,' "$made/crates/form_table/src/table.rt")" = 1 ] && [ "$(grep -c '^    ADD,' "$made/crates/form_table/src/table.rt")" = 64 ] || return 1
    make_table UNDEF
    ! tools/forms "$made" >/dev/null
}

holds_the_cycles() { # a table that is what its rows say, and one with a number less
    rm -rf "$made"
    mkdir -p "$made/crates/latency/specs" "$made/docs"
    printf '    row (LDXinc 0) 3 2 2 ∷\n    row RET 4 4 4 ∷ []\n' >"$made/crates/latency/specs/Cycles.antt"
    { echo 'Ticks by instruction:' && tools/cycles print "$made"; } >"$made/docs/CYCLES.md"
    tools/cycles "$made" >/dev/null && grep -q '^| `LD Rd,X+` | 3 | 2 | 2 |$' "$made/docs/CYCLES.md" || return 1
    sed -i 's/| 4 | 4 | 4 |/| 4 | 4 | 3 |/' "$made/docs/CYCLES.md"
    ! tools/cycles "$made" >/dev/null
}

says_the_commit() { # of a folder with git, with and without changes, and of one without
    rm -rf "$made"
    mkdir -p "$made/tools" && cp tools/commit "$made/tools"
    [ "$("$made/tools/commit")" = 'no git' ] || return 1
    in_made="git -C $made -c user.name=x -c user.email=x"
    git init -q "$made" && $in_made add . && $in_made commit -q -m x && [ "$("$made/tools/commit")" = "$($in_made rev-parse HEAD)" ] || return 1
    echo '# changed' >>"$made/tools/commit"
    [ "$("$made/tools/commit")" = "$($in_made rev-parse HEAD) with changes that are not committed" ]
}

for sample in tests/contracts/*.sample; do
    as_it_says "$sample"
    note $? "$sample"
done
listed_otherwise
note $? 'tools/contracts on a function that is listed otherwise'
finds_what_is_unused
note $? 'tools/dependencies on what nobody uses'
passes_what_is_used
note $? 'tools/dependencies on what is used'
finds_what_is_unclaimed
note $? 'tools/claims'
holds_sums
note $? 'tools/sources'
holds_the_table
note $? 'tools/forms'
holds_the_cycles
note $? 'tools/cycles'
if there tools/commit git; then quietly tools/commit says_the_commit; fi
