#!/usr/bin/env bash
# measure.sh: instructions a byte of the Rust crate, counted by callgrind, on the corpora of bench/make.py at a twentieth of their sizes, of strings
# on the whole, whose texts begin with their numbers. A count is half of the difference of one round and three. Without the tunables valgrind
# counts long copies by their bytes. Then instructions a pod where each is rewritten by a call of its own, appended to a vector and in place; and, where
# PipeWire's headers are there, a pair of bench/meets.c, filtered and negotiated, here and by PipeWire. As a program is built that doesn't ask for
# link-time optimization:
#   CARGO_PROFILE_RELEASE_LTO=false CARGO_PROFILE_RELEASE_CODEGEN_UNITS=16 measure.sh
set -eu
here=$(dirname "$(readlink -f "${BASH_SOURCE[0]}")")
room=$(mktemp -d)
trap 'rm -rf "$room"' EXIT
export GLIBC_TUNABLES=glibc.cpu.x86_rep_movsb_threshold=0x7fffffffffff:glibc.cpu.x86_rep_stosb_threshold=0x7fffffffffff
cargo build --release --offline --jobs 2 --quiet --manifest-path "$here/Cargo.toml" --target-dir "${CARGO_TARGET_DIR:-$here/target}"
cp "${CARGO_TARGET_DIR:-$here/target}/release/measure" "$room/measure"
python3 -B - "$here/../../bench" "$room" <<'PY'
import pathlib, sys
sys.path.insert(0, sys.argv[1])
import make
room = pathlib.Path(sys.argv[2])
for name, pods in [("mixed", make.examples(3000)), ("struct-of-ints", make.pod(make.STRUCT, make.ints(50_000))),
                   ("struct-of-strings", make.pod(make.STRUCT, make.strings(200_000))), ("array-of-ints", make.array_of_ints(50_000)),
                   ("object-of-ints", make.object_of_ints(10_000)), ("nested", make.nested(300) * 100)]:
    (room / name).write_bytes(pods)
words = lambda *them: b"".join(it.to_bytes(4, "little") for it in them)
for noise in 0, 9:
    pod = words(80, 15, 0x40003, 4, 1, 0, 4, 3, 1, 0, 2, 0, 4, 3, 1, noise, 0x10003, 0, 4, 4, 48000, 0)
    inside = words(4, 4, 7, 0, 12, 8, 0x6C6C6568, 0x6F77206F, 0x646C72, 0) + pod + words(24, 13, 4, 4, 1, 2, 3, 4, 8, 10, 44100, 1, 8, 5, 1, 2)
    (room / f"object{noise}").write_bytes(pod * 200)
    (room / f"struct{noise}").write_bytes((words(len(inside), 14) + inside) * 200)
small = b"".join(it.read_bytes() for it in sorted(pathlib.Path(sys.argv[1], "..", "examples").glob("*.pod")) if it.stat().st_size <= 240)
(room / "mixed0").write_bytes(small * 40)
(room / "mixed9").write_bytes(make.dirty(small * 40))
(room / "surplus").write_bytes(words(72, 15, 0x40003, 4, 1, 0, 4, 3, 1, 0, 2, 0, 24, 19, 0, 0, 4, 4, 5, 6) * 200)
PY
count() {
  valgrind --tool=callgrind --callgrind-out-file=/dev/null "$room/measure" "$1" "$2" < "$room/$3" 2>&1 | sed -n 's/.*Collected : //p'
}
printf '%-18s %8s %8s %8s %8s %8s\n' '' read clone write rewrite equal
for pods in mixed struct-of-ints struct-of-strings array-of-ints object-of-ints nested; do
  printf '%-18s' $pods
  for work in read clone write rewrite equal; do
    python3 -c "print(' %8.2f' % (($(count $work 3 $pods) - $(count $work 1 $pods)) / 2 / $(stat -c %s "$room/$pods")), end='')"
  done
  echo
done
printf '%-18s %8s %8s\n' 'a pod' appended in-place
for pods in object0 object9 surplus mixed0 mixed9 struct0 struct9; do
  printf '%-18s' $pods
  for work in appended in-place; do
    python3 -c "print(' %8.0f' % (($(count $work 3 $pods) - $(count $work 1 $pods)) / 2 / 200), end='')"
  done
  echo
done
pkg-config --exists libspa-0.2 || exit 0
gcc -O2 $(pkg-config --cflags libspa-0.2) "$here/../../bench/meets.c" -o "$room/meets"
by_pipewire() {
  valgrind --tool=callgrind --callgrind-out-file=/dev/null "$room/meets" "$1" "$3" "$2" 2>&1 | sed -n 's/.*Collected : //p'
}
printf '%-18s %10s %10s %10s %10s\n' 'a pair' filtered PipeWire negotiated PipeWire
for pairs in met refused; do
  "$room/meets" pods $pairs 0 > "$room/$pairs"
  printf '%-18s' $pairs
  for work in 'count filtered' 'by_pipewire filter' 'count negotiated' 'by_pipewire fixate'; do
    python3 -c "print(' %10.0f' % (($($work 3 $pairs) - $($work 1 $pairs)) / 2 / 200), end='')"
  done
  echo
done
