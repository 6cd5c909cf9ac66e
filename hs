#!/usr/bin/env bash
# Runs the program in the caller's folder, with the caller's words and status.
#
# On first use the program's crates are proved and built, which takes many minutes; a line on standard error tells of each as it
# begins. With HS_TRY=1 the program runs at once and without its proof, and nothing is proved of such a run.
root=$(cd "$(dirname "${BASH_SOURCE[0]}")" && pwd) || exit 12
rt=$(command -v rt || echo /opt/rattle/bin/rt)
program="$root/crates/hs/out/hs"
log="$root/crates/hs/build.log"

# The crates that the program stands on and then the program itself, a line each: the crate, and those of them that it stands on.
crates_below() {
    awk -F: '
        function visit(name, parts, count, i, own) {
            if (!(name in below) || seen[name]++) return
            count = split(below[name], parts, " ")
            for (i = 1; i <= count; i++) visit(parts[i])
            own = ""
            for (i = 1; i <= count; i++) if (parts[i] in below) own = own " " parts[i]
            print name own
        }
        !/^#/ && NF > 1 { below[$1] = $2 }
        END { visit("hs") }' "$root/crates.txt"
}

fail() {
    cat "$log" >&2
    echo "hs: the program was not built" >&2
    exit 12
}

# Whether a crate is to be begun: it is not yet, and of those that it stands on none is left.
ready() {
    local below
    [ "${left[$1]:-}" = waits ] || return 1
    for below in ${needs[$1]}; do
        [ -z "${left[$below]:-}" ] || return 1
    done
}

# Proves one crate; of the program, builds it too.
prove_one() {
    cd "$root/crates/$1" || return
    if [ "$1" = hs ]; then
        "$rt" run
        [ -x "$program" ]
    else
        "$rt" lib
    fi
}

# Proves the crates, as many at once as there are processors, each behind those that it stands on.
prove() {
    local -A left=() needs=() running=()
    local crates=() begun=0 failed=0 crate below pid logs
    logs=$(mktemp -d) || exit 12
    while read -r crate below; do
        crates+=("$crate")
        left[$crate]=waits
        needs[$crate]=$below
    done < <(crates_below)
    echo "hs: proving the program first, once; HS_TRY=1 runs it at once without its proof" >&2
    while [ "${#left[@]}" -gt 0 ]; do
        for crate in "${crates[@]}"; do
            if [ "$failed" = 0 ] && [ "${#running[@]}" -lt "$(nproc)" ] && ready "$crate"; then
                begun=$((begun + 1))
                left[$crate]=runs
                echo "hs: proving $begun of ${#crates[@]}: $crate" >&2
                prove_one "$crate" >"$logs/$crate" 2>&1 </dev/null &
                running[$!]=$crate
            fi
        done
        [ "${#running[@]}" -gt 0 ] || break
        wait -n -p pid || failed=1
        unset "left[${running[$pid]}]" "running[$pid]"
    done
    cat "$logs"/* >"$log"
    rm -r "$logs"
    [ -x "$program" ] || fail
}

# Runs the words over the kit's own runner, which sees only the files that it is handed.
try() {
    local word data=() told
    for word in "$@"; do
        [ -f "$word" ] && data+=(--data "$word=$(realpath "$word")")
    done
    echo "hs: nothing is proved of this run" >&2
    told=$(mktemp) || exit 12
    (cd "$root/crates/hs" && "$rt" try "${data[@]}" -- "$@") 2>"$told"
    status=$?
    grep -v '^checked: \|^run=' "$told" >&2
    rm -f "$told"
    exit "$status"
}

[ "${HS_TRY:-}" = 1 ] && try "$@"
[ -x "$program" ] || prove
exec "$program" "$@"
