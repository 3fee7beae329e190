# The measure `decode` of bench/run, which reads this file: what a decode takes, over all 65,536 words and over the words of the two images.
# The program crates/decoding is run so many times over and twice as often, and the difference divided by the words between: its start plays no part.
rounds=9

find_words() { # the images, and one of every word
    mkdir -p target/bench/words
    cp firmware/heat_index.bin target/bench/words/heat_index
    cp firmware/heat_index_timer.bin target/bench/words/heat_index_timer
    LC_ALL=C awk 'BEGIN { for (w = 0; w < 65536; w++) printf "%c%c", w % 256, w / 256 }' >target/bench/words/all
    [ "$(wc -c <target/bench/words/all)" = 131072 ] || not_run "awk writes no zero bytes"
}

find_program() { # NAME: as rt runs it: off x86-64 with the loader and the library of the kit
    needs rt
    (cd "crates/$1" && rt run </dev/null >/dev/null) || not_run "crates/$1 is not proved"
    program=crates/$1/out/$1
    if [ "$(uname -m)" != x86_64 ]; then
        kit=$(dirname "$(dirname "$(readlink -f "$(command -v rt)")")")/toolchain/lib
        program="$kit/ld-linux-x86-64.so.2 --library-path $kit $program"
    fi
}

input() { # WAY TIMES WORDS: what the program reads
    printf "\\$(printf %o "$1")\\$(printf %o $(($2 / 256)))\\$(printf %o $(($2 % 256)))"
    cat "target/bench/words/$3"
}

nanoseconds() { # how long the program takes on target/bench/input, by the clock
    start=$(date +%s%N)
    $program <target/bench/input >/dev/null
    echo $(($(date +%s%N) - start))
}

executed() { # the processor's instructions that it takes on it
    counted $program <target/bench/input | cut -f 1
}

of_words() { # MEASURE WAY TIMES WORDS
    input "$2" "$3" "$4" >target/bench/input
    "$1"
}

slopes() { # MEASURE TIMES: a line for each way and its words, by that measure; an image of so many words more times over
    for words in all heat_index heat_index_timer; do
        pairs=$(($(wc -c <"target/bench/words/$words") / 4))
        for way in 0 1 2 3; do
            times=$(($2 * 32768 / pairs))
            [ "$way" != 2 ] || times=$((times / 10 + 1))
            printf '%s\t%s\t%s\t%s\n' "$words" "$way" "$(of_words "$1" "$way" "$times" "$words")" "$(of_words "$1" "$way" $((times * 2)) "$words") $((times * pairs * 2))"
        done
    done
}

medians() { # UNIT: from those lines, of any number of rounds
    sort -s -k 1,2 | awk -v unit="$1" '
        BEGIN { split("decode|by a lent table|by a table built at each use|no decoding", name, "|") }
        function told(n, i, j, x) {
            for (i = 2; i <= n; i++) {
                x = slope[i]
                for (j = i - 1; j > 0 && slope[j] > x; j--) slope[j + 1] = slope[j]
                slope[j + 1] = x
            }
            printf "  %-18s%-30s%8.2f %s\n", work, name[way + 1], slope[int((n + 1) / 2)], unit
        }
        ($1 != work || $2 != way) && n { told(n); n = 0 }
        { work = $1; way = $2; slope[++n] = ($4 - $3) / $5 }
        END { told(n) }'
}

measure_decode() {
    find_words
    find_program decoding
    if [ "$(uname -m)" = x86_64 ]; then
        echo "nanoseconds a decode, by the clock, the loop around it included; median of $rounds rounds, in turns"
        for round in $(seq "$rounds"); do slopes nanoseconds 100; done | medians ns
    else
        echo "not run: nanoseconds: on $(uname -m) the program runs under an emulator, so no time is claimed"
    fi
    echo "instructions a decode, the loop around it included, by $counter"
    slopes executed 4 | medians instructions
}
