#!/usr/bin/env bash
# Tries the firmware kit as its page says, by hand, since it needs Debian's gcc-riscv64-unknown-elf and picolibc. Each case has a folder
# of its own, and all are run, also behind one that is red: the last line counts them, and the status is 1 where one is red.
#   checks/commands/firmware.sh [--kit FOLDER] [CASE..]    another kit in the place of firmware/; CASE absent: all
# The cases are the functions case_* of checks/commands/firmware.d.
set -euo pipefail
cd "$(dirname "$0")/../.."
top=$PWD
source_kit=$top/firmware
if [ "${1:-}" = --kit ]; then
    source_kit=$(readlink -f "${2:?--kit wants a folder}")
    shift 2
fi
work=$(mktemp -d)
trap 'rm -rf "$work"' EXIT
# The caller's own rvtest, options of make and variables of the compiler would be in the place of those that are tried.
unset RVTEST MAKEFLAGS CI CPATH C_INCLUDE_PATH CPLUS_INCLUDE_PATH COMPILER_PATH LIBRARY_PATH GCC_EXEC_PREFIX SOURCE_DATE_EPOCH
# shellcheck source=checks/commands/firmware.d/tools.bash
source checks/commands/firmware.d/tools.bash
# shellcheck source=checks/commands/firmware.d/examples.bash
source checks/commands/firmware.d/examples.bash
# shellcheck source=checks/commands/firmware.d/builds.bash
source checks/commands/firmware.d/builds.bash
# shellcheck source=checks/commands/firmware.d/rebuilds.bash
source checks/commands/firmware.d/rebuilds.bash
# shellcheck source=checks/commands/firmware.d/inputs.bash
source checks/commands/firmware.d/inputs.bash
# shellcheck source=checks/commands/firmware.d/asked.bash
source checks/commands/firmware.d/asked.bash
# shellcheck source=checks/commands/firmware.d/resolved.bash
source checks/commands/firmware.d/resolved.bash
# shellcheck source=checks/commands/firmware.d/choices.bash
source checks/commands/firmware.d/choices.bash
# shellcheck source=checks/commands/firmware.d/programs.bash
source checks/commands/firmware.d/programs.bash
# shellcheck source=checks/commands/firmware.d/lists.bash
source checks/commands/firmware.d/lists.bash

# The kit as someone who copied it has it: with an rvtest elsewhere.
kit=$work/kit
cp -r "$source_kit" "$kit"
find "$kit" -name build -type d -prune -exec rm -rf {} +

cases=("$@")
[ ${#cases[@]} -gt 0 ] || mapfile -t cases < <(compgen -A function case_ | sed 's/^case_//')
red=()
for case in "${cases[@]}"; do
    declare -F "case_$case" >/dev/null || fail "there is no case $case: $(compgen -A function case_ | sed 's/^case_//' | paste -sd ' ')"
    mkdir -p "$work/$case"
    set +e
    (set -e && cd "$work/$case" && "case_$case")
    status=$?
    set -e
    if [ "$status" = 0 ]; then
        echo "green: $case"
    else
        echo "RED: $case"
        red+=("$case")
    fi
done
echo "checks/commands/firmware.sh: ${#cases[@]} cases, ${#red[@]} red${red[*]:+: ${red[*]}}"
[ ${#red[@]} = 0 ]
