# shellcheck shell=bash
# Sourced by the scripts that run a proved program. Such a program is built for x86-64; on any other processor the
# toolchain's own emulator runs it.

# proved_program FILE: sets the array `program` to the words that run FILE here; not so where it cannot be run.
proved_program() {
    [ -f "$1" ] || { echo "there is no program $1"; return 1; }
    if [ "$(uname -m)" = x86_64 ]; then
        program=("$1")
        return
    fi
    local kit tools
    kit=$(dirname "$(dirname "$(readlink -f "$(command -v rt)")")")
    tools=$kit/on/$(uname -m)/toolchain
    # shellcheck disable=SC2034
    program=("$tools/bin/qemu-x86_64" "$tools/lib/ld-linux-x86-64.so.2" --library-path "$tools/lib" "$1")
    [ -x "${program[0]}" ] || { echo "the toolchain has no emulator for $(uname -m): ${program[0]}"; return 1; }
}

# frames_of FILE: the frames of a file with comments; lines that begin with # and empty ones are not sent.
frames_of() {
    LC_ALL=C grep -av -e '^#' -e '^[[:space:]]*$' "$1"
}

# crates_of NAME: the crates of this repository that NAME is made of, itself among them, one a line.
crates_of() {
    awk -v name="$1" '
        function add(n,    k, a, m) {
            if (seen[n]++ || !(n in uses)) return
            print n
            m = split(uses[n], a, " ")
            for (k = 1; k <= m; k++) add(a[k])
        }
        { sub(/#.*/, "") }
        /:/ { named = substr($0, 1, index($0, ":") - 1); sub(/ .*/, "", named); uses[named] = substr($0, index($0, ":") + 1) }
        END { add(name) }' crates.txt
}
