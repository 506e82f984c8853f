#!/bin/sh
# mbuild.sh EXP: the bench with EXP as the engine, the proved base archive as before; SX is the folder of the experiments
: "${SX:?}"
rm -f "$SX"/arch/$1/liblesson.a; mkdir -p "$SX"/arch/$1
cp "$SX"/$1/liblesson.a "$SX"/arch/$1/
cd "$SX"/mb && LESSON_ARCHIVE_DIR="$SX"/arch/$1 LESSON_BEFORE_DIR="$SX"/arch/proved CARGO_TARGET_DIR="$SX"/mt nice -n 15 cargo build --release --offline 2>&1 | grep -E "^(error|warning: unused)|-->" | head -20
cp "$SX"/mt/release/mb "$SX"/mb-$1
