#!/bin/sh
# Proves and builds curve, and patches a copy of the sample file with it.
set -e
cd "$(dirname "$0")/.."
mkdir -p target/bin target/run
(cd crates/curve && rt run -- --help) >target/run/build.log 2>&1 || { cat target/run/build.log; exit 1; }
cp crates/curve/out/curve target/bin/curve
cp examples/eur.curve target/run/eur.curve
printf 'list\nput 5Y -25\nlist\n' |
    target/bin/curve target/run/eur.curve --header 16 1Y 2Y 3Y 4Y 5Y 7Y 10Y
