#!/usr/bin/env bash
# Accepts lists that are made at random, by the built rvtest: their expectations are wrong, and behind one call of accept each list
# passes, and a second call changes nothing. Then accepts a list of which the process is killed before each change of a disk in turn, and
# before each write: each file is the old one or the new one, and the next call ends the work. Then two lists that share a golden file.
#   checks/commands/accepts.sh [LISTS [SEED]]     so many lists, else 1,000; by this seed, else 1
set -euo pipefail
cd "$(dirname "$0")/../.."
# shellcheck source=checks/lib/fixtures.bash
source checks/lib/fixtures.bash
here=$PWD
cd "$work"
mkdir lists
python3 "$here/checks/lib/accepting.py" "$work/rvtest" "$shim" "$work/lists" "${1:-1000}" "${2:-1}"
