#!/bin/sh
# Builds dlog_bench and the baseline, runs both in turn in a folder, three rounds, and prints medians and ratios.
#   bench/run.sh DIR N [T]      with T: also what T threads log
set -eu

rounds=3

die() {
    echo "bench: $1" >&2
    exit "$2"
}

[ $# -eq 2 ] || [ $# -eq 3 ] || die "give DIR, a folder that is there and empty, N, a number of items, and perhaps T, one of threads" 2
dir=$1
items=$2
for number in "$items" "${3-1}"; do
    case $number in
        '' | 0* | *[!0-9]*) die "N and T are numbers from 1 on: $number" 2 ;;
    esac
done
[ -d "$dir" ] || die "no folder: $dir" 1
[ -w "$dir" ] || die "nothing may be written in $dir" 1
for tool in rt rustc awk; do
    command -v "$tool" >/dev/null 2>&1 || die "$tool is not on the PATH" 1
done

bench=$(CDPATH='' cd -- "$(dirname -- "$0")" && pwd)
crate=$bench/../crates/dlog_bench
program=$crate/out/dlog_bench
work=$(mktemp -d)

# What the programs remove themselves, unless they were stopped.
clear_files() {
    rm -f -- "$dir"/bench_[0-9]*.log "$dir"/bench_baseline.log "$dir"/bench_wrap.* "$dir"/bench_set.*
}

trap 'clear_files; rm -rf -- "$work"' EXIT
trap 'exit 1' HUP INT TERM

echo "bench: building, which takes some minutes the first time" >&2
(cd "$crate" && RT_BACKEND=llvm rt run -- --version) </dev/null >"$work/log" 2>&1 || {
    cat "$work/log" >&2
    die "dlog_bench could not be built" 1
}
rustc -O -o "$work/baseline" "$bench/baseline.rs" || die "the baseline could not be built" 1

for round in $(seq "$rounds"); do
    echo "bench: round $round of $rounds" >&2
    clear_files
    "$program" ${3:+"--threads=$3"} "$dir" "$items" >>"$work/lines" || die "dlog_bench failed" 1
    clear_files
    "$work/baseline" "$dir" "$items" ${3:+"$3"} >>"$work/lines" || die "the baseline failed" 1
done

awk '
    function median(name,   n, i, j, v) {
        n = split(values[name], v, " ")
        for (i = 2; i <= n; i++)
            for (j = i; j > 1 && v[j - 1] + 0 > v[j] + 0; j--) { t = v[j]; v[j] = v[j - 1]; v[j - 1] = t }
        return v[int((n + 1) / 2)]
    }
    # How many times as long one takes as the other. Rates are turned round, times are not.
    function ratio(text, slow, fast,   s, f) {
        if (!(slow in values) || !(fast in values)) { printf "%-64s not measured\n", text; return }
        s = median(slow); f = median(fast)
        if (unit[slow] != "ms") { t = s; s = f; f = t }
        if (f + 0 == 0) printf "%-64s no figure\n", text
        else printf "%-64s %.2f\n", text, s / f
    }
    { name = $1; sub(/:$/, "", name); if (!(name in seen)) { seen[name] = 1; names[++count] = name } }
    { values[name] = values[name] " " $2; unit[name] = $3 }
    END {
        print "medians, and the rounds they are of"
        for (i = 1; i <= count; i++) {
            name = names[i]
            printf "%-36s %14s %-8s of%s\n", name, median(name), unit[name], values[name]
        }
        print ""
        print "times as long as"
        ratio("append one a call: a BufWriter", "dlog_append_folder", "baseline_append_folder")
        ratio("append one a call: a write an item", "dlog_append_folder", "baseline_append_unbuffered_folder")
        ratio("append 64 a call: a BufWriter", "dlog_append_64_folder", "baseline_append_64_folder")
        ratio("read back: a scan that keeps all items", "dlog_read_folder", "baseline_read_folder")
        ratio("open with repair: a pass over heads and a cut", "dlog_open_repair_folder", "baseline_open_repair_folder")
        ratio("append one a call, a wrap log: a halt log", "dlog_append_wrap_folder", "dlog_append_folder")
        ratio("append 64 a call, files of 100 kB: one file", "dlog_append_64_set_folder", "dlog_append_64_folder")
        ratio("read back, files of 100 kB: one file", "dlog_read_set_folder", "dlog_read_folder")
        ratio("open, files of 100 kB: one file", "dlog_open_set_folder", "dlog_open_closed_folder")
        ratio("100 logs by turns: one log of dlog", "dlog_round_robin_100_folder", "dlog_append_folder")
        ratio("1,000 logs by turns: one log of dlog", "dlog_round_robin_folder", "dlog_append_folder")
        if (!("dlog_log_core_folder" in values)) exit
        ratio("a hub that may keep its history and does not: one that cannot", "dlog_log_off_folder", "dlog_log_core_folder")
        ratio("a hub that keeps its history: one that does not", "dlog_log_kept_folder", "dlog_log_off_folder")
        ratio("threads, log: one thread with a hub", "dlog_threads_log_off_folder", "dlog_log_core_folder")
        ratio("threads, alog: log", "dlog_threads_alog_off_folder", "dlog_threads_log_off_folder")
        ratio("threads, log: a BufWriter under a lock", "dlog_threads_log_off_folder", "baseline_threads_log_folder")
        ratio("threads, log, history kept: not kept", "dlog_threads_log_kept_folder", "dlog_threads_log_off_folder")
    }
' "$work/lines"
