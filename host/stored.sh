#!/usr/bin/env bash
# stored.sh SCRIPTS ORACLE    makes tests/*.list and the examples' reports again, and prints the table of
# tests/README.md.
# SCRIPTS: the folder with the oracle's generators (gen.py, gend.py) and cases; ORACLE: the oracle's program.
# Everything depends on the seeds below alone.
set -euo pipefail
scripts=$(realpath "$1")
oracle=$(realpath "$2")
cd "$(dirname "$0")"
work=$(mktemp -d)
trap 'rm -rf "$work"' EXIT
cargo build --offline --quiet --release
host=target/release/host

seed=20
files() { python3 "$scripts/gen.py" $seed "$2" "$work/$3$1" "${4:-0}" --profile "$1"; }

# the examples' reports, without the line `check`
for name in case-a casting model-600; do
  $host assemble ../examples/$name.txt "$work/$name.bin"
  "$oracle" "$work/$name.bin" > ../examples/$name.report
done

# for reading: a few files of each profile, damaged copies of the small ones
for profile in tiny small wild loops calls ray deep wide steps; do files $profile 6 reading- 2; done
files medium 3 reading- 1
python3 "$scripts/gend.py" $seed 300 "$work/damaged" --from "$work/reading-tiny" --from "$work/reading-small" --from "$work/reading-ray"
$host stored reading "$oracle" ../tests/reading.list "$scripts/cases" "$work"/reading-* "$work/damaged"

# for requests: more of the profiles whose files are small
for profile in tiny small calls ray; do files $profile 40 requests-; done
for profile in wild loops deep; do files $profile 24 requests-; done
for profile in wide steps; do files $profile 16 requests-; done
files medium 10 requests-
files heavy 5 requests-
files large 1 requests-
files model 1 requests-
$host stored requests "$oracle" ../tests/requests.list ../examples "$scripts/cases" "$work"/requests-*

# for the program `report`: small files and damaged copies of them
for profile in tiny small; do files $profile 24 report- 1; done
$host stored report "$oracle" ../tests/report.list ../examples/case-a.txt ../examples/casting.txt "$work"/report-* "$work/damaged"/x0000[0-4]*

# for bindings: small files; the oracle is exponential in the depth of types
for profile in tiny small calls; do files $profile 12 bindings-; done
$host stored bindings "$oracle" ../tests/bindings.list ../examples/casting.txt "$work"/bindings-*

# for the check of reports: the second clearance's own answers
$host stored clearance ../tests/clearance.list

$host stored count ../tests/reading.list ../tests/requests.list
