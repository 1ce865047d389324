#!/usr/bin/env bash
# Tries this commit as someone who has a clone alone: in a bare Debian tree without a toolchain, a compiler or python3, where the
# README's first command must print its line within 2 seconds; then with python3, where `checks/run` must pass within 3 minutes. Wants root,
# for debootstrap, chroot and mount, and a Debian mirror. What is not committed does not count.
#   checks/commands/bare.sh [SUITE]    SUITE absent: bookworm; TREE=FOLDER keeps the bare tree there, for the next call
set -euo pipefail
cd "$(dirname "$(readlink -f "$0")")/../.."
suite=${1:-bookworm}
work=$(mktemp -d)
# shellcheck source=checks/lib/bare_tree.bash
source checks/lib/bare_tree.bash

fail() {
    echo "checks/commands/bare.sh: $*" >&2
    exit 1
}

end() {
    umount -R "$work/tree/dev" "$work/tree/proc" 2>/dev/null || true
    rm -rf --one-file-system "$work"
}
trap end EXIT

inside() {
    chroot "$work/tree" /bin/bash -c "cd /clone && $1"
}

# The milliseconds since this moment of `date +%s%N`.
since() {
    echo $((($(date +%s%N) - $1) / 1000000))
}

bare_tree "$work/tree"
git clone -q . "$work/tree/clone"
for folder in dev proc; do
    mount --rbind "/$folder" "$work/tree/$folder"
    mount --make-rslave "$work/tree/$folder"
done
for command in rt cc gcc clang python3 git; do
    inside "! command -v $command" || fail "the tree is not bare: it has $command"
done

began=$(date +%s%N)
line=$(inside './rvtest run examples/fleet.toml') || fail "the first command failed: $line"
took=$(since "$began")
[ "$line" = '5 jobs: 5 passed, 0 failed, 28310 steps' ] || fail "the first command prints: $line"
[ "$took" -lt 2000 ] || fail "the first command took $took ms"
echo "./rvtest run examples/fleet.toml: $line ($took ms)"

status=0
line=$(inside 'checks/run' 2>&1) || status=$?
if [ "$status" != 3 ] || [[ $line != *python3* ]]; then
    fail "checks/run without python3: status $status, $line"
fi
echo "checks/run, without python3: status $status, $line"
cp /etc/resolv.conf "$work/tree/etc/"
inside 'apt-get update && apt-get install -y --no-install-recommends python3' >"$work/log" 2>&1 || fail "python3 was not installed: $(tail -n 3 "$work/log")"
began=$(date +%s%N)
inside 'checks/run' | tee "$work/said" || fail "checks/run failed"
took=$(since "$began")
[ "$took" -lt 180000 ] || fail "checks/run took $took ms"
echo "checks/commands/bare.sh: $(tail -n 1 "$work/said"), $((took / 1000)) s, in a bare $suite with python3"
