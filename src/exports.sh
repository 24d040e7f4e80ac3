#!/bin/sh
# Prints what libferretgold.so exports: the functions that headers declare, also by the names by which C
# links them, and the raw ones that they name in functions of their own; none that is static, or a type.
# Usage: CC=cc src/exports.sh HEADER..
set -eu
folder=$(mktemp -d)
trap 'rm -rf "$folder"' EXIT
cat "$@" | sed '/^ *# *include/d' > "$folder/header"
${CC:-cc} -E -P -x c "$folder/header" | tr '\n;{}' ' \n\n\n' | sed '/^ *typedef/d' > "$folder/parts"
grep -oE '\bferretgold_[a-z0-9_]+ *\(|__asm__\("ferretgold_[a-z0-9_]+' "$folder/parts" \
    | sed 's/__asm__//' | tr -d ' ("' | sort -u > "$folder/named"
sed -nE 's/^ *static [^(]*\b(ferretgold_[a-z0-9_]+) *\(.*/\1/p' "$folder/parts" | sort -u > "$folder/own"
comm -23 "$folder/named" "$folder/own"
