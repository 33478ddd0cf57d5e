#!/usr/bin/env bash
# Whether the docs name what is there: every edit, definition file and path that they lead to. Run by ./test; says each
# thing that is missing, and ends with a non-zero status where something is.
set -u
cd "$(dirname "$0")/.." || exit 1
bad=0
miss() { echo "docs: $*"; bad=1; }

# The edits: PROMISES.md names each one as crate/name, and each that it names is there.
crates=$(sed -n 's/^\([a-z_0-9]*\)\( staticlib\)\{0,1\}:.*/\1/p' crates.txt)
pattern="(^|[^a-z_/])($(echo $crates | tr ' ' '|'))/[a-z_0-9]+"
named=$(grep -oE "$pattern" docs/PROMISES.md | sed 's/^[^a-z]*//' | sort -u)
there=$(find crates -path '*/must-fail/*.edit' | sed 's|crates/||; s|/must-fail/|/|; s|\.edit$||' | sort)
while read -r edit; do miss "PROMISES.md names the edit $edit, and there is none"; done < <(comm -23 <(echo "$named") <(echo "$there") | grep .)
while read -r edit; do miss "PROMISES.md does not say what the edit $edit guards"; done < <(comm -13 <(echo "$named") <(echo "$there") | grep .)

# `crate: File.antt` stands in that crate's specs/ or proofs/.
while IFS=': ' read -r crate file; do
    [ -f "crates/$crate/specs/$file" ] || [ -f "crates/$crate/proofs/$file" ] || miss "PROMISES.md leads to $file of $crate, and there is none"
done < <(grep -ohE '`[a-z_]+: [A-Za-z0-9/]+\.antt`' docs/PROMISES.md | tr -d '`' | sort -u)

# The table of README.md: crate/specs/File.antt has the names that stand behind it.
while IFS= read -r line; do
    cell=${line##*| }
    file=''
    for word in $cell; do
        word=${word%[,;]}
        case $word in
        */specs/*.antt)
            file=crates/$word
            [ -f "$file" ] || miss "README.md leads to $file, and there is none"
            ;;
        '`'*'`')
            name=${word//\`/}
            grep -qE "pub (record )?$name( |$)" "$file" 2>/dev/null || miss "README.md has $name in $file, where it is not defined"
            ;;
        esac
    done
done < <(sed -n '/^## From document 01/,/^## How/p' README.md | grep '/specs/' | sed 's/ *|$//')

# Every path under crates/, host/, docs/, examples/ and tools/ that a page names.
while IFS= read -r path; do
    [ -e "$path" ] || miss "a page names $path, and there is none"
done < <(grep -ohE '\b(crates|host|docs|examples|tools)/[A-Za-z0-9_./-]+' README.md CHANGELOG.md docs/*.md examples/README.md |
    sed 's/[.,:;]*$//' | grep -vE '^(host/target|docs/src|crates/NAME)|\.\.' | sort -u)

# Every crate has its line in README's table and its word in FREEDOMS.md.
for crate in $crates; do
    grep -q "| \`$crate\` |" README.md || miss "README.md's table lacks $crate"
    grep -q "^- \`$crate\`" docs/FREEDOMS.md || miss "FREEDOMS.md lacks $crate"
done

# No line of code, definition, proof or page is over 160 characters.
export LC_ALL=C.UTF-8
while IFS= read -r place; do miss "over 160 characters: $place"; done < <(find crates docs examples README.md CHANGELOG.md -path 'crates/*/out' -prune -o \( -name '*.rt' -o -name '*.antt' -o -name '*.md' \) -print |
    xargs grep -nE '^.{161,}$' | cut -d: -f1,2)
exit $bad
