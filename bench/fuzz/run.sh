#!/usr/bin/env bash
# run.sh SECONDS [FOLDER]: fuzzes libspav (make -C capi) for so long, on one processor at the lowest priority, and prints how many runs were made, how
# many paths were found, and how many crashes and hangs. What is found stays in FOLDER (bench/out/fuzz), and the next run goes on with it.
set -eu
here=$(dirname "$(readlink -f "${BASH_SOURCE[0]}")")
root=$(readlink -f "$here/../..")
room=${2:-$root/bench/out/fuzz}
library=${SPAV_LIB:-$root/capi/out}/libspav.a
[ -f "$library" ] || { echo "run.sh: $library isn't there: make -C capi builds it, by the Rattle kit or by cargo" >&2; exit 1; }
mkdir -p "$room/in"
compile=(clang -fsanitize=fuzzer -DLIBFUZZER)
if command -v afl-clang-fast > /dev/null; then compile=(afl-clang-fast); fi
"${compile[@]}" -O2 -g -Wno-everything -I"$root/capi" "$here/fuzz.c" "$root/bench/capi/one_pass.c" "$library" -o "$room/fuzz"
cp "$root"/examples/*.pod "$room/in/"
python3 - "$root" "$room/in" <<'PY'
import pathlib, sys
root, room = map(pathlib.Path, sys.argv[1:])
for i, row in enumerate((root / "crates/reading_rows/stdin").read_text().split("\n")):
    label, _, words = row.rpartition(":")
    name = label.split(" ")[0]
    if name in ("list", "fixate", "built"):
        given = b"".join(bytes.fromhex(it[1:]) if it[0] == "x" else int(it).to_bytes(4, "little") for it in words.split())
        if 0 < len(given) <= 400:
            (room / f"{name}-{i}").write_bytes(given)
PY
if [ "${compile[0]}" = clang ]; then
  mkdir -p "$room/paths"
  cd "$room" # where a crash is written
  nice -n 19 ./fuzz -max_len=512 -max_total_time="$1" -print_final_stats=1 paths in > log 2>&1 || { tail -5 log >&2; exit 1; }
  grep -E '^stat::number_of_executed_units|DONE' log
  exit
fi
begin=$room/in
[ -d "$room/found" ] && begin=-
AFL_NO_UI=1 AFL_SKIP_CPUFREQ=1 AFL_I_DONT_CARE_ABOUT_MISSING_CRASHES=1 AFL_NO_AFFINITY=1 \
  nice -n 19 afl-fuzz -G 512 -i "$begin" -o "$room/found" -V "$1" -- "$room/fuzz" > "$room/log" 2>&1 || { tail -5 "$room/log" >&2; exit 1; }
grep -E '^(execs_done|execs_per_sec|corpus_count|saved_crashes|saved_hangs|run_time)' "$room/found/default/fuzzer_stats"
