#!/usr/bin/env bash
# Everything that must hold before a change counts: rt ci passes, and no edit that must be refused is a bad one, which counts for
# nothing. The last line is the verdict of rt ci.
set -euo pipefail
cd "$(dirname "$0")/.."
log=$(mktemp)
trap 'rm -f "$log"' EXIT
rt ci 2>&1 | tee "$log"
if grep -qE '^rt: ok.*, [1-9][0-9]* bad' "$log"; then
    echo "an edit that must be refused is bad: it was not tried as it stands"
    exit 1
fi
