#!/usr/bin/env bash
# run.sh [INPUTS]: times `podtool` beside `cat` on the inputs that make.py writes, and prints a table. The folder INPUTS is
# made where it is missing (bench/out/inputs by default). ROUNDS=N in place of 7 rounds; WORDS='rewrite' for that word alone.
set -eu
here=$(dirname "$(readlink -f "${BASH_SOURCE[0]}")")
inputs=${1:-$here/out/inputs}
rounds=${ROUNDS:-7}
read -ra words <<< "${WORDS:-rewrite fixate show}"

[ -d "$inputs" ] || python3 "$here/make.py" "$inputs"
# built where a source changed; then the program itself is timed, and not the script that finds it
"$here/../podtool" rewrite < /dev/null
program=$here/../crates/podtool/out/podtool
# as the script sets it
malloc=glibc.malloc
export GLIBC_TUNABLES=${GLIBC_TUNABLES:-$malloc.hugetlb=1:$malloc.mmap_threshold=4294967296:$malloc.top_pad=262144}

# The least of so many rounds, in microseconds: from a file in memory, into a pipe that is emptied at once.
best_of() {
  local input=$1 best= from to round
  shift
  for ((round = 0; round < rounds; round++)); do
    from=${EPOCHREALTIME/[.,]/}
    "$@" < "$input" | cat > /dev/null
    to=${EPOCHREALTIME/[.,]/}
    [[ -z $best || $((to - from)) -lt $best ]] && best=$((to - from))
  done
  echo "$best"
}

# Two cells of the table: milliseconds, and MB a second (a byte a microsecond is one).
cells() { printf ' %d.%d | %d |' $(($1 / 1000)) $(($1 / 100 % 10)) $((size / $1)); }

printf '| Input | MB | `cat`, ms | MB/s |'
printf ' `%s`, ms | MB/s |' "${words[@]}"
printf '\n|---|---|---|---|'
printf -- '---|---|%.0s' "${words[@]}"
echo
for input in "$inputs"/*.pod; do
  size=$(stat -c %s "$input")
  cat "$input" > /dev/null
  printf '| %s | %d.%d |' "$(basename "$input" .pod)" $((size / 1000000)) $((size / 100000 % 10))
  cells "$(best_of "$input" cat)"
  for word in "${words[@]}"; do
    cells "$(best_of "$input" "$program" "$word")"
  done
  echo
done
