#!/bin/sh
# How fast the clients log, each through the pipe of a program of its own, and Redis over its socket: five rounds in turn in a
# folder, and the median of each line with its rounds.
#   bench/frames/run.sh PROGRAM DIR N
set -eu

rounds=5

die() {
    echo "bench: $1" >&2
    exit 2
}

[ $# -eq 3 ] || die "give PROGRAM, which is dlog, DIR, a folder that is there and empty, and N, a number of items"
program=$(realpath -- "$1")
dir=$2
items=$3
here=$(CDPATH='' cd -- "$(dirname -- "$0")" && pwd)
clients=$here/../../clients
work=$(mktemp -d)
trap 'rm -rf -- "$work" "$dir"/run' EXIT

cc -std=c11 -D_POSIX_C_SOURCE=200809L -pthread -O2 -o "$work/log_c" "$here/log.c" "$clients"/c/*.c
rustc --edition 2021 -O --crate-type rlib --crate-name dlog -o "$work/libdlog.rlib" "$clients/rust/src/lib.rs"
rustc --edition 2021 -O --extern dlog="$work/libdlog.rlib" -o "$work/log_rust" "$here/log.rs"
erlc -o "$work" "$clients"/erlang/src/*.erl
cc -O2 -o "$work/redis" "$here/redis.c" -lhiredis || echo "bench: no hiredis here" >&2

# Runs a command in an empty folder, whose name it is given with the number of items.
run() {
    rm -rf "$dir/run"
    mkdir "$dir/run"
    "$@" "$dir/run" "$items" >>"$work/lines"
}

for round in $(seq "$rounds"); do
    echo "bench: round $round of $rounds" >&2
    run "$work/log_c" "$program"
    run "$work/log_rust" "$program"
    run python3 -B "$here/log.py" "$program"
    run escript "$here/log.escript" "$work" "$program"
    [ ! -x "$work/redis" ] || run "$work/redis" redis-server
done

awk '{ name = $1; sub(":", "", name); if (!(name in all)) order[++n] = name; all[name] = all[name] " " $2 }
     END { for (i = 1; i <= n; i++) { command = "printf \"%s\\n\"" all[order[i]] " | sort -n | sed -n 3p"; command | getline middle; close(command)
           print order[i] ": " middle " (" substr(all[order[i]], 2) ")" } }' "$work/lines"
