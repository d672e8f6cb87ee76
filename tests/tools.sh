#!/bin/sh
# Installs what the tests take beside rt, from Debian's packages, where it is missing.
work=$(mktemp -d) || exit 1
trap 'rm -rf "$work"' EXIT
for tool in gcc g++ cargo valgrind pkg-config python3; do
    command -v $tool > /dev/null || { apt-get update && apt-get install -y $tool; } > "$work/log" 2>&1 || { tail -n 5 "$work/log"; exit 1; }
done
