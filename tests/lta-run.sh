#!/bin/sh
# The command lta-run: its lines, exit status and messages, where all is well and where its input, its output, its
# reader or the proof fails. Works below target/. Ends with a line of how many cases there are, and exit status 0.
set -eu
top=$(cd "$(dirname "$0")/.." && pwd -P)
work=$(mktemp -d "$top/target/lta-run-test.XXXXXX")
trap 'rm -rf "$work"' EXIT
cases=0

wrong() {
    echo "lta-run, $*" >&2
    exit 1
}

holds() {
    "$@" || wrong "not so: $*"
}

# case_of NAME STATUS WORDS: after a command that left its exit status in $work/status and its messages in $work/said.
# WORDS must be part of them; `nothing` means that there are none.
case_of() {
    status=$(cat "$work/status")
    said=$(cat "$work/said")
    [ "$status" = "$2" ] || wrong "$1: exit status $status in place of $2: $said"
    case $3:$said in
    nothing:) ;;
    nothing:*) wrong "$1: said $said" ;;
    *:*"$3"*) ;;
    *) wrong "$1: said '$said' in place of '$3'" ;;
    esac
    cases=$((cases + 1))
}

# Runs the command of the repository, or the one at $at.
lta_run() {
    "${at:-$top}/lta-run" 2>"$work/said" && echo 0 >"$work/status" || echo $? >"$work/status"
}

inputs() {
    lta_run <"$top/crates/lta_run/stdin" >"$work/out"
    case_of "the example" 0 nothing
    holds cmp "$work/out" "$top/crates/lta_run/stdout"
    lta_run </dev/null >"$work/out"
    case_of "no record" 0 nothing
    holds [ "$(cat "$work/out")" = "END 0" ]
    printf 'TK\002\003\003TK\002\003' | lta_run >"$work/out"
    case_of "a cut record" 17 nothing
    holds [ "$(cat "$work/out")" = "TK 0 0
END 17" ]
    printf 'TK\002\003\200TK\002\003\003' | lta_run >"$work/out"
    case_of "a validity byte with another bit" 0 nothing
    holds [ "$(cat "$work/out")" = "TK 19
TK 0 0
END 0" ]
    lta_run <&- >"$work/out"
    case_of "standard input closed" 1 "standard input is closed"
    lta_run <"$work" >"$work/out"
    case_of "a directory" 1 "standard input is a directory"
    holds [ ! -s "$work/out" ]
    lta_run 0>"$work/other" >"$work/out"
    case_of "an input that cannot be read" 1 "standard input failed"
}

outputs() {
    awk 'BEGIN { for (i = 0; i < 60000; i++) printf "TK\002\003\003" }' >"$work/long"
    lta_run <"$work/long" >"$work/out"
    case_of "many lines" 0 nothing
    holds [ "$(uniq -c "$work/out" | tr -s ' ')" = " 60000 TK 0 0
 1 END 0" ]
    lta_run <"$work/long" >&-
    case_of "standard output closed" 1 "standard output is closed"
    if [ -c /dev/full ]; then
        lta_run <"$work/long" >/dev/full
        case_of "no room for the output" 1 "standard output failed"
    fi
    lta_run <"$work/long" | head -n 1 >"$work/out"
    case_of "a reader that goes away" 1 "its reader went away"
    holds [ "$(cat "$work/out")" = "TK 0 0" ]
}

# A line is there before the next record comes; a signal to the command ends the program.
signals() {
    mkfifo "$work/in" "$work/lines"
    "$top/lta-run" <"$work/in" >"$work/lines" 2>"$work/said" &
    run=$!
    (sleep 30 && kill "$run") >/dev/null 2>&1 &
    watch=$!
    exec 5>"$work/in" 6<"$work/lines"
    for turn in 1 2 3; do
        printf 'TK\002\003\003' >&5
        read -r line <&6 || line="no line $turn"
        holds [ "$line" = "TK 0 0" ]
    done
    kill "$run"
    wait "$run" 2>/dev/null && echo 0 >"$work/status" || echo $? >"$work/status"
    case_of "ended by a signal" 143 nothing
    tries=0
    while (printf 'TK\002\003\003' >&5) 2>/dev/null; do
        tries=$((tries + 1))
        [ "$tries" -le 5 ] || wrong "the program still reads after its command was ended"
        sleep 1
    done
    exec 5>&- 6<&-
    kill "$watch" 2>/dev/null || true
}

# A copy of the command beside a stub of rt: what is said before, and where the proof fails.
proofs() {
    at=$work/copy
    mkdir -p "$at/crates/one" "$at/crates/lta_run" "$work/bin"
    cp "$top/lta-run" "$at/"
    touch "$at/crates.txt"
    printf '#!/bin/sh\nmkdir -p out && cp "%s" out/\n' "$top/crates/lta_run/out/lta_run" >"$work/bin/rt"
    chmod +x "$work/bin/rt"
    PATH=$work/bin:$PATH
    lta_run </dev/null >"$work/out"
    case_of "the first run" 0 "proving and building the program"
    lta_run </dev/null >"$work/out"
    case_of "the second run" 0 nothing
    sleep 1
    touch "$at/crates/one/lib.rt"
    lta_run </dev/null >"$work/out"
    case_of "a crate that changed" 0 "proving and building the program"
    printf '#!/bin/sh\necho rt: FAILED: one\nexit 1\n' >"$work/bin/rt"
    lta_run </dev/null >"$work/out"
    case_of "no proof" 1 "not proved; target/lta-run.log ends: rt: FAILED: one"
    holds [ ! -s "$work/out" ]
    at=''
}

"$top/lta-run" </dev/null >/dev/null 2>&1 || wrong "the program is not proved; see target/lta-run.log"
inputs
outputs
signals
proofs
for left in "$top"/target/lta-run.??????; do
    holds [ ! -e "$left" ]
done
echo "lta-run: $cases cases as they should be"
