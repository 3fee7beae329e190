# The measure `ticking` of bench/run, which reads this file behind decode.sh: what a tick takes in 01's bench loop, the program crates/ticking, over the three loops of src/work.rs.
# The program makes so many ticks and twice as many, and the difference is divided by the ticks between: its start plays no part.
make_loop() { # NAME START BODY: the words of START, 1,024 of BODY and RJMP back to the first of these, low byte first
    LC_ALL=C awk -v start="$2" -v body="$3" '
        function put(word) { printf "%c%c", word % 256, word / 256 }
        BEGIN {
            words = split(start, first, " ")
            for (i = 1; i <= words; i++) put(first[i])
            words = split(body, round, " ")
            for (i = 0; i < 1024; i++) put(round[i % words + 1])
            put(52223)
        }' >"target/bench/words/$1"
}

make_loops() {
    mkdir -p target/bench/words
    make_loop add '57602 58133' 3841
    make_loop cp_cpc '58116 57618 59176 57650' '5890 1811'
    make_loop adiw '' 38401
}

of_ticks() { # MEASURE TICKS LOOP
    printf "\\$(printf %o $(($2 / 16777216)))\\$(printf %o $(($2 / 65536 % 256)))\\$(printf %o $(($2 / 256 % 256)))\\$(printf %o $(($2 % 256)))" >target/bench/input
    cat "target/bench/words/$3" >>target/bench/input
    "$1"
}

tick_slopes() { # MEASURE TICKS: a line for each loop, by that measure
    for loop in add cp_cpc adiw; do
        once=$(of_ticks "$1" "$2" $loop)
        twice=$(of_ticks "$1" $((2 * $2)) $loop)
        echo "$loop $once $twice $2"
    done
}

tick_medians() { # UNIT: from those lines, of any number of rounds
    awk '{ print $1, ($3 - $2) / $4 }' | sort -k 1,1 -k 2,2n | awk -v unit="$1" '
        { slope[$1, ++rounds[$1]] = $2 }
        END { for (loop in rounds) printf "  %-18s%8.2f %s\n", loop, slope[loop, int((rounds[loop] + 1) / 2)], unit }' | sort
}

measure_ticking() {
    make_loops
    find_program ticking
    if [ "$(uname -m)" = x86_64 ]; then
        echo "nanoseconds a tick, by the clock; median of $rounds rounds, in turns"
        for round in $(seq "$rounds"); do tick_slopes nanoseconds 10000000; done | tick_medians ns
    else
        echo "not run: nanoseconds: on $(uname -m) the program runs under an emulator, so no time is claimed"
    fi
    echo "instructions a tick, by $counter"
    tick_slopes executed 200000 | tick_medians instructions
}
