#!/usr/bin/env bash
# The version stands in VERSION, and the sources of rvtest say the same. (checks/commands/runner.sh asks the built program; packages are named by
# VERSION, and their pages have no number of their own.)
#   checks/commands/version.sh
set -euo pipefail
cd "$(dirname "$0")/../.."

version=$(<VERSION)
if [[ ! $version =~ ^[0-9]+\.[0-9]+\.[0-9]+$ ]]; then
    echo "checks/commands/version.sh: VERSION is '$version', expected three numbers, as 1.0.0" >&2
    exit 1
fi
found=0
while IFS=: read -r file line text; do
    said=$(sed -n 's/.*\.version("\([^"]*\)").*/\1/p; s/.*rvtest \([0-9][0-9.]*[0-9]\).*/\1/p' <<<"$text")
    [ "$said" = "$version" ] || { echo "checks/commands/version.sh: $file:$line says $said, VERSION says $version" >&2; exit 1; }
    found=$((found + 1))
done < <(grep -rnE '\.version\("|rvtest [0-9]+\.[0-9]+\.[0-9]+' --include='*.rt' --include='*.md' --include='*.txt' crates/*/src crates/*/*.md checks docs README.md packaging firmware)
[ "$found" != 0 ] || { echo 'checks/commands/version.sh: nothing says a version' >&2; exit 1; }
echo "checks/commands/version.sh: $version in VERSION and at $found places"
