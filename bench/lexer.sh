#!/bin/sh
# Lexes texts of 131,072 and of 262,144 bytes, of names, of marks, of one long comment and of nested comments, and prints for
# each the milliseconds that one lexing took and the greatest memory of the process in kilobytes. Run it by hand at the top of
# the repository; it proves and builds crates/bench_lexer first. The first argument, if there is one, is the number of rounds.
set -eu
rounds=${1:-20}
cd "$(dirname "$0")/../crates/bench_lexer"
rt run >/dev/null 2>&1
for kind in names marks comment nested; do
    for bytes in 131072 262144; do
        python3 - "$kind" "$bytes" "$rounds" <<'END'
import resource, subprocess, sys, time

kind, length, rounds = sys.argv[1:]
start = time.monotonic()
line = subprocess.run(["./out/bench_lexer", kind, length, rounds], stdout=subprocess.PIPE, check=True, text=True).stdout.strip()
spent = (time.monotonic() - start) * 1000 / int(rounds)
memory = resource.getrusage(resource.RUSAGE_CHILDREN).ru_maxrss
print(f"{line}: {spent:.2f} ms, {memory} kB")
END
    done
done
