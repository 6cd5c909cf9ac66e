#!/bin/sh
# Folds 10 million operations at each width, on words and on plain integers, and prints the milliseconds that each took.
# Run it by hand at the top of the repository; it proves and builds crates/bench_words first. The first argument, if there is
# one, is the number of rounds of four operations.
set -eu
rounds=${1:-2500000}
cd "$(dirname "$0")/../crates/bench_words"
rt run >/dev/null 2>&1
for width in 32 128; do
    for way in plain words; do
        start=$(date +%s%N)
        line=$(./out/bench_words "$width" "$way" "$rounds")
        end=$(date +%s%N)
        echo "$line: $(((end - start) / 1000000)) ms"
    done
done
