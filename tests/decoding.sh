# Tries the program crates/decoding: by either decoder as many words have a second one, of all 65,536 and of the images of firmware/. Read by tests/run.
decoded() ( # WAY FILE: how many words of the file have a second one, once over
    here=$PWD name=tests/decoding.sh
    . tools/proved.sh
    { printf "\\00$1\\000\\001" && cat "$2"; } | run decoding
)

decoded_alike() { # FILE COUNT
    for way in 0 1 2; do
        [ "$(decoded "$way" "$1")" = "$2" ] || return 1
    done
}

quietly 'rt run decoding' build decoding
LC_ALL=C awk 'BEGIN { for (w = 0; w < 65536; w++) printf "%c%c", w % 256, w / 256 }' >"$work/all_words"
decoded_alike "$work/all_words" 192
note $? 'crates/decoding on every word: 32 are LDS, 32 STS, 64 JMP and 64 CALL'
for image in 'heat_index 20' 'heat_index_timer 25' 'crc 13' 'sort 11'; do
    decoded_alike "firmware/${image% *}.bin" "${image#* }"
    note $? "crates/decoding on firmware/${image% *}.bin"
done
