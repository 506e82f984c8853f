#!/bin/sh
# build.sh ROOT OUT; SX is the folder of the experiments
: "${SX:?}"
python3 "$SX"/conv.py $1 "$SX"/$2 && cd "$SX"/$2 && nice -n 15 rustc --edition 2021 -C opt-level=3 -C panic=abort -C codegen-units=1 --crate-type staticlib src/lib.rs -o liblesson.a 2>&1 | grep -E "^error|-->" | head -30
