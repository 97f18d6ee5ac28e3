#!/usr/bin/env bash
# Tries the edits that the gate skips: those in wrong-bodies, in the form of those in must-fail. The
# prover must refuse each. It works on a copy, and takes a proof of each crate, some four minutes of
# a processor, and three quarters of a minute for each edit; it says beforehand how long. Prints a
# line for each edit, and ends with status 1 if one is not refused. Needs the kit of Rattle.
#
#     tests/nightly/wrong_bodies.sh [CRATE..]      by default all crates that have some
set -eu
top=$(cd "$(dirname "$0")/../.." && pwd)
[ -n "$(command -v rt)" ] || {
  echo "wrong_bodies.sh: the kit of Rattle is missing: there is no command rt on the path" >&2
  exit 2
}
for name in "$@"; do
  [ -d "$top/crates/$name/wrong-bodies" ] || {
    echo "wrong_bodies.sh: there are no wrong bodies of a crate $name" >&2
    exit 2
  }
done
copy=$(mktemp -d)
trap 'rm -rf "$copy"' EXIT

names=("$@")
if [ ${#names[@]} -eq 0 ]; then
  for folder in "$top"/crates/*/wrong-bodies; do
    names+=("$(basename "$(dirname "$folder")")")
  done
fi

edits=0
for name in "${names[@]}"; do
  for edit in "$top/crates/$name/wrong-bodies"/*.edit; do
    edits=$((edits + 1))
  done
done
minutes=$((${#names[@]} * 4 + edits * 3 / 4))
echo "wrong_bodies.sh: $edits edits of ${#names[@]} crates: some $minutes minutes of a processor" \
  "($(nproc) are here), and before them the proofs of those below that were not proved here" >&2

cp "$top/crates.txt" "$top/HANDLES" "$copy"
mkdir "$copy/crates"
for crate in "$top"/crates/*; do
  mkdir "$copy/crates/$(basename "$crate")"
  for part in "$crate"/*; do
    case "$(basename "$part")" in
      out | must-fail | wrong-bodies) ;;
      *) cp -R "$part" "$copy/crates/$(basename "$crate")" ;;
    esac
  done
done
for name in "${names[@]}"; do
  cp -R "$top/crates/$name/wrong-bodies" "$copy/crates/$name/must-fail"
done
mkdir "$copy/.git"
cd "$copy"
rt must-fail "${names[@]}"
