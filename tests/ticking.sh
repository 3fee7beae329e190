# Tries the program crates/ticking, 01's bench loop: so many ticks lead where ./trace and firmware/check say. Read by tests/run.
ticked() ( # TICKS IMAGE: PC and R16 after so many ticks of an image of firmware/
    here=$PWD name=tests/ticking.sh
    . tools/proved.sh
    { word $(($1 / 65536)) && word $(($1 % 65536)) && cat "firmware/$2.bin"; } | run ticking
)

as_traced() { # TICKS: of the first image, PC as the line of its trace has it
    traced=$(sed -n "$1p" tests/trace/heat_index.out | cut -d ' ' -f 4)
    [ "$(ticked "$1" heat_index | cut -d ' ' -f 1)" = $((0x$traced)) ]
}

leads() { # TICKS IMAGE PC R16
    [ "$(ticked "$1" "$2")" = "$3 $4" ]
    note $? "crates/ticking: $1 ticks of firmware/$2.bin"
}

quietly 'rt run ticking' build ticking
for ticks in 1 2 3 100 1000 2266 2267; do
    as_traced $ticks
    note $? "crates/ticking: $ticks ticks of firmware/heat_index.bin"
done
leads 104598 crc 47 0 # before BREAK, and behind it
leads 104599 crc 48 0
leads 46357 sort 41 0
leads 46358 sort 42 0
