#!/usr/bin/env bash
# Prints what is promised, one statement a line: the theorems of crates/promises with what they are about, and the
# contracts of the functions that hosts link. To see what a change moved, compare the output before and after it.
set -u
cd "${1:-$(dirname "$0")/..}" || exit 1

for file in crates/promises/proofs/{Refusals,Units,Shells,Separations,Incident,Steps,Retired,Rounds,Points,Stepping,Questions}.antt; do
    awk -v file="${file##*/}" '
        function tell() { if (text != "") { gsub(/[ \t]+/, " ", text); print file ": " text }; text = ""; name = "" }
        { line = $0; sub(/^[ \t]+/, "", line) }
        line ~ /^(--|$)/ { tell(); next }
        line ~ /^module _/ { tell(); name = "module"; text = line; next }
        line ~ /^pub [^ ]+ :/ { tell(); text = line; name = line; sub(/^pub /, "", name); sub(/ :.*/, "", name); next }
        name != "" && (line == "unfolding" || index(line, "unfolding ") == 1 || index(line, name " ") == 1) { tell(); next }
        name == "module" && text ~ /where$/ { tell() }
        name != "" { text = text " " line }
        END { tell() }' "$file"
done
for file in crates/contactlib_c/src/*.rt; do
    awk -v file="${file##*/}" '
        /^pub extern "C" fn/ { on = 1; text = "" }
        on && /^{/ { gsub(/[ \t]+/, " ", text); print file ": " text; on = 0 }
        on { text = text " " $0 }' "$file"
done
