#!/usr/bin/env bash
# Whether the manual pages, the completions and the table of options are what the programs' own help and README.md say.
#   checks/commands/pages.sh
set -euo pipefail
cd "$(dirname "$0")/../.."
exec packaging/pages --check
