#!/bin/sh
# Checks texts of nearly 131,072 and 262,144 bytes: accepted ones of comments, of names of 64 bytes, of bindings and of
# assignments whose sums have 60 `+`; and of the whole language many functions, a long sum, many expressions in 40 pairs of
# parentheses, and a long list. Prints for each the milliseconds that one check took, the greatest memory of the process in
# kilobytes, and for the longer one how many times as long it took, which should be at most 2.3. Run it by hand at the top of
# the repository; it proves and builds crates/bench_front first. The first argument, if there is one, is the number of rounds.
set -eu
rounds=${1:-20}
cd "$(dirname "$0")/../crates/bench_front"
rt run >/dev/null 2>&1
for kind in comments names bindings assignments functions sum nesting list; do
    python3 - "$kind" "$rounds" <<'END'
import resource, subprocess, sys

kind, rounds = sys.argv[1:]
before = 0.0
for length in ("131072", "262144"):
    used = resource.getrusage(resource.RUSAGE_CHILDREN).ru_utime
    line = subprocess.run(["./out/bench_front", kind, length, rounds], stdout=subprocess.PIPE, check=True, text=True).stdout.strip()
    after = resource.getrusage(resource.RUSAGE_CHILDREN)
    spent = (after.ru_utime - used) * 1000 / int(rounds)
    ratio = f", {spent / before:.2f} times" if before else ""
    print(f"{line}: {spent:.2f} ms, {after.ru_maxrss} kB{ratio}")
    before = spent
END
done
