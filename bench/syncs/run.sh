#!/bin/sh
# How many items a second 1, 4, 16 and 64 writers log that each wait for a sync of every item: threads of dlog, its programs in
# Erlang and C through `dlog serve`, and LevelDB, Berkeley DB, SQLite and Erlang's disk_log. Three rounds in turn, and the medians
# as a table.
#   bench/syncs/run.sh DLOG DLOG_BENCH DIR EACH [slow]
# DLOG and DLOG_BENCH are the built programs, DIR is a folder that is there and empty, and EACH how many items a writer logs, 1000
# at most. With `slow` a sync takes two milliseconds (bench/slow_sync.c). A peer that is not there is left out. ROUNDS, WRITERS and
# SYSTEMS in the environment choose others, as ROUNDS=5 WRITERS="16 64" SYSTEMS="threads leveldb".
set -eu

die() {
    echo "bench: $1" >&2
    exit 2
}

[ $# -eq 4 ] || [ "$#.${5-}" = 5.slow ] || die "give DLOG, DLOG_BENCH, DIR, EACH and perhaps the word slow"
dlog=$(realpath -- "$1")
threads=$(realpath -- "$2")
dir=$3
each=$4
[ -d "$dir" ] && [ -w "$dir" ] || die "no folder to write in: $dir"
[ "$each" -ge 1 ] && [ "$each" -le 1000 ] || die "EACH is a number from 1 to 1000: $each"
rounds=${ROUNDS-3}
writers=${WRITERS-1 4 16 64}
systems=${SYSTEMS-threads apart serve_c serve_erlang leveldb berkeley disk_log sqlite}
here=$(CDPATH='' cd -- "$(dirname -- "$0")" && pwd)
clients=$here/../../clients
work=$(mktemp -d)
trap 'rm -rf -- "$work" "$dir"/run' EXIT
trap 'exit 1' HUP INT TERM

slow=
if [ $# -eq 5 ]; then
    cc -O2 -shared -fPIC -o "$work/slow_sync.so" "$here/../slow_sync.c"
    slow=$work/slow_sync.so
fi
cc -std=c11 -D_POSIX_C_SOURCE=200809L -O2 -pthread -o "$work/served" "$here/served.c" "$clients"/c/*.c
c++ -O2 -pthread -o "$work/leveldb" "$here/leveldb.cc" -lleveldb 2>"$work/log" || echo "bench: no LevelDB here" >&2
cc -O2 -pthread -o "$work/berkeley" "$here/berkeley.c" -ldb 2>"$work/log" || echo "bench: no Berkeley DB here" >&2
cc -O2 -pthread -o "$work/sqlite" "$here/sqlite.c" -lsqlite3 2>"$work/log" || echo "bench: no SQLite here" >&2
erlc -o "$work" "$clients"/erlang/src/*.erl 2>"$work/log" || echo "bench: no Erlang here" >&2

# Runs a command, with the slow device if that is asked for.
over() {
    LD_PRELOAD=$slow "$@"
}

# What a system does with so many writers in the folder `run`. SQLite's writers take turns, so that all of them log EACH items.
measure() {
    case $1 in
        threads) over "$threads" "--threads=$2" --only=threads_sync "$dir/run" $((each * $2)) ;;
        apart) over "$threads" "--threads=$2" --only=threads_sync_apart "$dir/run" $((each * $2)) ;;
        serve_c) over "$work/served" "$dlog" "$dir/run" "$2" "$each" ;;
        serve_erlang) [ ! -e "$work/dlog.beam" ] || over escript "$here/erlang.escript" "$work" "$dlog" "$dir/run" "$2" "$each" ;;
        disk_log) [ ! -e "$work/dlog.beam" ] || over escript "$here/erlang.escript" disk_log "$dir/run" "$2" "$each" ;;
        sqlite) [ ! -x "$work/sqlite" ] || over "$work/sqlite" "$dir/run" "$2" $(((each + $2 - 1) / $2)) ;;
        *) [ ! -x "$work/$1" ] || over "$work/$1" "$dir/run" "$2" "$each" ;;
    esac
}

for round in $(seq "$rounds"); do
    for count in $writers; do
        echo "bench: round $round of $rounds, writers $count" >&2
        for system in $systems; do
            rm -rf -- "$dir/run"
            mkdir "$dir/run"
            measure "$system" "$count" >"$work/line" || die "$system failed"
            sed "s/^/$count /" "$work/line" >>"$work/lines"
        done
    done
done

# A line is the writers, the name, which may end with their number, the figure and its unit; a wait has a mean and the longest.
awk -v writers="$writers" '
    function median(name, count,   n, i, j, v, t) {
        n = split(values[name, count], v, " ")
        for (i = 2; i <= n; i++)
            for (j = i; j > 1 && v[j - 1] + 0 > v[j] + 0; j--) { t = v[j]; v[j] = v[j - 1]; v[j - 1] = t }
        return n ? v[int((n + 1) / 2)] : "-"
    }
    function note(name, count, value) {
        if (!(name in seen)) { seen[name] = 1; names[++total] = name }
        values[name, count] = values[name, count] " " value
    }
    { name = $2; sub(/:$/, "", name); sub("_" $1 "$", "", name); sub(/_folder$/, "", name) }
    $5 == "mean" { note(name " mean ms", $1, $3); note(name " longest ms", $1, $6); next }
    { note(name " items/s", $1, $3) }
    END {
        n = split(writers, counts, " ")
        printf "| writers |"; for (i = 1; i <= n; i++) printf " %s |", counts[i]
        printf "\n|---|"; for (i = 1; i <= n; i++) printf "---|"
        printf "\n"
        for (at = 1; at <= total; at++) {
            printf "| %s |", names[at]
            for (i = 1; i <= n; i++) printf " %s |", median(names[at], counts[i])
            printf "\n"
        }
        for (at = 1; at <= total; at++)
            for (i = 1; i <= n; i++) printf "%s, %s:%s\n", names[at], counts[i], values[names[at], counts[i]]
    }
' "$work/lines"
