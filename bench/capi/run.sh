#!/usr/bin/env bash
# run.sh: instructions of a rewriting by libspav (make -C capi) and by the second implementation in C, counted by callgrind: 1,000 pods of
# examples/, as they are and with noise in their padding, all in one call; and a call for each of 1,000 Props of about 100 bytes. Then a
# question and a fixation for each pod, and a list of all that lies inside, beside a function in C that calls itself.
# Without the tunables valgrind counts long copies by their bytes. A count is the difference of two runs that rewrite 2 and 12 times, a tenth of it: the start of the program is in neither.
set -eu
here=$(dirname "$(readlink -f "${BASH_SOURCE[0]}")")
root=$here/../..
library=${SPAV_LIB:-$root/capi/out}/libspav.a
[ -f "$library" ] || { echo "run.sh: $library isn't there: make -C capi builds it, by the Rattle kit or by cargo" >&2; exit 1; }
room=$(mktemp -d)
trap 'rm -rf "$room"' EXIT
export GLIBC_TUNABLES=glibc.cpu.x86_rep_movsb_threshold=0x7fffffffffff:glibc.cpu.x86_rep_stosb_threshold=0x7fffffffffff
gcc -O3 -g -Wall -I"$root/capi" "$here/calls.c" -c -o "$room/calls.o"
gcc -O3 -g "$here/one_pass.c" -c -o "$room/one_pass.o"
gcc "$room/calls.o" "$room/one_pass.o" "$library" -o "$room/calls"
python3 - "$root" "$room" <<'PY'
import pathlib, struct, sys
root, room = map(pathlib.Path, sys.argv[1:])
pods = [it.read_bytes() for it in sorted((root / "examples").glob("*.pod"))]
(room / "mixed").write_bytes(b"".join(pods[i % len(pods)] for i in range(1000)))
word = lambda *numbers: struct.pack(f"<{len(numbers)}I", *numbers)
prop = lambda key: word(key, 0, 4, 4, key, 0)
small = word(80, 15, 5, 3) + b"".join(prop(key) for key in (1, 2, 3))
(room / "small").write_bytes(small * 1000)
# The default of a None choice stands before three values that go.
shrinking = word(80, 15, 5, 3) + prop(1) + word(2, 0, 32, 19, 0, 5, 4, 4, 7, 8, 9, 10)
(room / "shrinking").write_bytes(shrinking * 1000)
PY
for it in mixed small; do "$room/calls" noise "$room/$it" 1 > "$room/$it-noise"; done
count() {
  local few many
  few=$(valgrind --tool=callgrind --callgrind-out-file=/dev/null "$room/calls" "$1" "$room/$2" 2 2>&1 | sed -n 's/.*Collected : //p')
  many=$(valgrind --tool=callgrind --callgrind-out-file=/dev/null "$room/calls" "$1" "$room/$2" 12 2>&1 | sed -n 's/.*Collected : //p')
  echo $(((many - few) / 10))
}
echo '| Pods | second implementation | libspav | ratio | in place, with a copy before | ratio |'
echo '|---|---|---|---|---|---|'
for row in mixed: mixed-noise: small:_each small-noise:_each shrinking: shrinking:_each; do
  file=${row%:*} each=${row#*:}
  one=$(count "one_pass$each" "$file")
  ours=$(count "library$each" "$file")
  place=$(count "place$each" "$file")
  echo "| $file$each | $one | $ours | $((ours * 100 / one))% | $place | $((place * 100 / one))% |"
done
for row in mixed:canonical mixed-noise:canonical mixed:fixate; do
  echo "| ${row%:*}, ${row#*:} | | $(count "${row#*:}" "${row%:*}") | | | |"
done
