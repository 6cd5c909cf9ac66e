#!/bin/sh
# Looks for the names of made texts and for what their items declare, twice as many parts the second time: functions and constants
# each of which needs the one behind it, aliases of one another, locals of one function, blocks in one another that bind one name,
# enums of 256 constructors, and structs each of which has the one behind it twice. Prints for each the milliseconds that one look took, and for the longer one how many times as long it took, which should be at most 2.3.
# Run it by hand at the top of the repository; it proves and builds crates/bench_names first. The first argument, if there is one, is
# the number of rounds.
set -eu
rounds=${1:-20}
cd "$(dirname "$0")/../crates/bench_names"
rt run >/dev/null 2>&1
for row in "functions 2048" "constants 2048" "aliases 4096" "locals 2048" "shadows 2040" "constructors 4096" "structs 4096"; do
    python3 - $row "$rounds" <<'END'
import resource, subprocess, sys

kind, count, rounds = sys.argv[1:]


def spent(count, rounds):
    """Returns the seconds of user time of one run, and the line that it printed."""
    used = resource.getrusage(resource.RUSAGE_CHILDREN).ru_utime
    words = ["./out/bench_names", kind, str(count), str(rounds)]
    line = subprocess.run(words, stdout=subprocess.PIPE, check=True, text=True).stdout.strip()
    return resource.getrusage(resource.RUSAGE_CHILDREN).ru_utime - used, line


before = 0.0
for parts in (int(count), 2 * int(count)):
    reading, _ = spent(parts, 0)
    all_, line = spent(parts, rounds)
    took = (all_ - reading) * 1000 / int(rounds)
    ratio = f", {took / before:.2f} times" if before else ""
    print(f"{line}, {parts} parts: {took:.2f} ms{ratio}")
    before = took
END
done
