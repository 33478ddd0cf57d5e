#!/usr/bin/env bash
# What hosts link, tried as a host would: the header as C and as C++, held to the library; the sample programs outside
# the repository, built by README.md's own lines; a library with another ABI number; the wrapper where there is no library,
# and where it is for another processor. On any processor but x86-64 all of it is compiled, and nothing is linked.
#
#     tools/hosts.sh PREFIX      PREFIX: where ./install has put the library; not read where nothing is linked
#
# Says what it did, and ends with a non-zero status at the first thing that is not as it should be.
set -u
cd "$(dirname "$0")/.." || exit 1
repository=$PWD
prefix=${1-}
linked=$([ "$(uname -m)" = x86_64 ] && echo yes)
outside=$(mktemp -d) || exit 1
trap 'rm -rf "$outside"' EXIT
fail() { echo "FAILED: $*"; exit 1; }

for tool in cc c++ pkg-config cargo rustc; do
    command -v $tool >/dev/null || fail "no command '$tool' (README.md, 'What you need')"
done

# readme_lines HEADING: the indented lines below a heading of README.md, with the two folders that it names put in.
readme_lines() {
    sed -n "/^### $1\$/,/^##/p" README.md | sed -n 's/^    //p' | sed "s|FROZENHAMES|$repository|g; s|PREFIX|$prefix|g"
}

# ---- the header, and the number that stands in five places
strict="-Wall -Wextra -Werror"
echo '#include "contact.h"' >"$outside/header.c"
cp "$outside/header.c" "$outside/header.cpp"
for standard in c99 c11 c17; do
    cc -std=$standard -pedantic $strict -Ihost/c -fsyntax-only "$outside/header.c" || fail "the header is no $standard"
done
for standard in c++11 c++17; do
    c++ -std=$standard -pedantic $strict -Ihost/c -fsyntax-only "$outside/header.cpp" || fail "the header is no $standard"
done
abi=$(sed -n 's/^#define CONTACT_ABI \([0-9]*\)$/\1/p' host/c/contact.h)
for place in 'host/c/contact.pc:abi=' 'host/records/src/lib.rs:pub const ABI: u32 = ' 'crates/contactlib/src/abi.rt:pub const ABI: u32 = ' \
    'crates/contactlib/specs/Abi.antt:abi_number = '; do
    grep -qE "^${place#*:}$abi;?\$" "${place%%:*}" || fail "${place%%:*} has another ABI number than the header, $abi"
done
echo "the header is C99, C11, C17, C++11 and C++17; its ABI number $abi is that of library, definition, wrapper and pkg-config file"

# ---- the library has what the header declares, no memory of its own, and needs no more than the header says
if [ "$linked" ]; then
    symbols() { nm "$prefix/lib/libcontactlib.a" | awk -v kinds="$1" 'NF > 1 && $(NF - 1) ~ "^[" kinds "]$" { print $NF }' | sort -u | xargs; }
    declared=$(grep -vE '^(static|#| |/\*)' host/c/contact.h | grep -oE '\bcontact_[a-z_]+\(' | tr -d '(' | sort -u | xargs)
    [ "$(symbols T)" = "$declared" ] || fail "the library exports $(symbols T), and the header declares $declared"
    for need in $(symbols U); do case $need in memcpy | memset) ;; *) fail "the library needs $need" ;; esac; done
    [ -z "$(symbols BbDdCGgSs)" ] || fail "the library has memory of its own: $(symbols BbDdCGgSs)"
    echo "the library exports $declared, needs no more than memcpy and memset ($(symbols U)) and has no memory of its own"
fi

# ---- its records against the library, on the stored frames and on the largest hulls; what calls need of the stack
compile_both() { # MORE WORDS..: the tests of the header, as C and as C++
    local test
    for test in frames steps apart; do
        cc -std=c11 -O2 $strict -pedantic host/c/tests/$test.c -o "$outside/$test-c" "$@" || fail "the header's test $test is no C"
        c++ -std=c++17 -O2 $strict -x c++ host/c/tests/$test.c -x none -o "$outside/$test-cpp" "$@" || fail "the header's test $test is no C++"
    done
}
if [ "$linked" ]; then
    # bound at once: the loader's own work in a first call would be seen on the painted stack
    compile_both "$prefix/lib/libcontactlib.a" -pthread -Wl,-z,now
    files=("stored frames" crates/contact/stdin crates/contact/stdout)
    host/target/release/largest "$outside/largest.frames" "$outside/largest.answers" 2>"$outside/said"
    case $? in
    0) files+=("the largest hulls" "$outside/largest.frames" "$outside/largest.answers") ;;
    2) echo "LEFT OUT: calls on the largest hulls: $(cat "$outside/said")" ;;
    *) fail "calls on the largest hulls could not be written: $(cat "$outside/said")" ;;
    esac
    questions=()
    host/target/release/questions "$outside/questions.frames" "$outside/questions.answers" 2>"$outside/said"
    case $? in
    0) questions=("$outside/questions.frames" "$outside/questions.answers") ;;
    2) echo "LEFT OUT: questions whether hulls are apart: $(cat "$outside/said")" ;;
    *) fail "questions whether hulls are apart could not be written: $(cat "$outside/said")" ;;
    esac
    for language in c cpp; do
        "$outside/frames-$language" "${files[@]}" || fail "the header's records are not the library's, or a call needs more stack than is stated ($language)"
        "$outside/steps-$language" "${files[@]}" || fail "a step answers otherwise than its calls, or needs more stack than is stated ($language)"
        [ ${#questions[@]} = 0 ] || "$outside/apart-$language" "${questions[@]}" ||
            fail "a question is answered otherwise than the Rust text says, or needs more stack than is stated ($language)"
    done
else
    compile_both -c
fi

# ---- three programs, each in C and in Rust, outside the repository, by what README.md says of the first
mkdir -p "$outside/in-c"
cp host/c/*.c host/c/logs.h "$outside/in-c/"
build_c=$(readme_lines 'A C host' | grep -E '^(export|cc) ')
build_rust=$(readme_lines 'A Rust host' | grep 'cargo ')
cargo_toml=$(readme_lines 'A Rust host' | sed -n '/^\[package\]/,/^contact =/p')
[ "$(wc -l <<<"$build_c")" = 2 ] && [ "$cargo_toml" ] && [ "$build_rust" ] || fail "README.md does not say how hosts are built"
export CARGO_NET_OFFLINE=true CARGO_TARGET_DIR=$outside/target
for sample in settle stack drag; do
    mkdir -p "$outside/$sample-in-rust/src"
    cp host/contact/examples/$sample.rs "$outside/$sample-in-rust/src/main.rs"
    echo "${cargo_toml//settle/$sample}" >"$outside/$sample-in-rust/Cargo.toml"
done
if [ -z "$linked" ]; then
    for sample in settle stack drag; do
        cc -std=c99 -pedantic $strict -Ihost/c -c "$outside/in-c/$sample.c" -o "$outside/$sample.o" || fail "the sample $sample.c does not compile"
        (cd "$outside/$sample-in-rust" && cargo check --quiet) || fail "the sample $sample.rs does not compile"
    done
    echo "the sample programs compile; none was linked on $(uname -m)"
    exit 0
fi
# sample NAME TEXT HEADING: both programs tell the story that TEXT tells over the Rust text, and README.md below HEADING, times aside.
sample() {
    (cd "$outside/in-c" && eval "${build_c//settle/$1}") >"$outside/c.said" 2>&1 || { cat "$outside/c.said"; fail "$1.c, by README.md's lines"; }
    (cd "$outside/$1-in-rust" && eval "$build_rust") >"$outside/rust.said" 2>"$outside/rust.words" || {
        cat "$outside/rust.words" "$outside/rust.said"
        fail "$1.rs, by README.md's lines"
    }
    readme_lines "$3" >"$outside/readme.said"
    "host/target/release/$2" >"$outside/text.said" || fail "the story of $1 by the Rust text"
    grep -q '^left out' "$outside/text.said" && { cat "$outside/text.said"; cp "$outside/readme.said" "$outside/text.said"; }
    local said
    for said in c rust readme; do
        cmp <(grep -v '^time: ' "$outside/text.said") <(grep -v '^time: ' "$outside/$said.said") ||
            fail "the story of $1 ($said) is not the one that the Rust text tells"
    done
}
sample settle settle 'What both print'
sample drag dragged 'What the dragged log prints'
sample stack stacked 'What the stack prints'
echo "two logs, and a stack of twelve, settled, and a log dragged over three, by programs in C and in Rust, outside the repository and built"
echo "by README.md's lines; each tells the story that the Rust text tells and README.md prints;"\
    "the stack $(sed -n 's/^time: //p' "$outside/c.said") in C, $(sed -n 's/^time: //p' "$outside/rust.said") in Rust"

# ---- a library with another number
mkdir "$outside/other"
echo 'unsigned contact_abi(void) { return 4000000000u; }
int contact_collide, contact_apart, contact_step, contact_answer, contact_first_broken_rule;' >"$outside/other.c"
cc -c "$outside/other.c" -o "$outside/other.o" && ar rcs "$outside/other/libcontactlib.a" "$outside/other.o" || fail "no other library"
refuses() { # WORDS..: the program says that the library is another, and ends with a status that is not 0
    "$@" >"$outside/said" 2>&1 && { cat "$outside/said"; fail "$1 goes on with a library of another number"; }
    grep -q "libcontactlib.a has ABI 4000000000 and .* has $abi: take both from the same release" "$outside/said" ||
        { cat "$outside/said"; fail "$1 does not say why"; }
}
cc "$outside/in-c/settle.c" -Ihost/c -o "$outside/settle-other" "$outside/other/libcontactlib.a" -lm || fail "the sample with another library"
refuses "$outside/settle-other"
CONTACT_LIBRARY_DIR=$outside/other cargo build --release --quiet --manifest-path "$outside/settle-in-rust/Cargo.toml" || fail "the sample with another library"
refuses "$outside/target/release/settle"
echo "with a library of another ABI number both samples say so and stop"

# ---- the wrapper without a library, and for another processor
without() { # CHECK OR BUILD
    CONTACT_LIBRARY_DIR=$outside/nowhere cargo "$1" --release --manifest-path "$outside/settle-in-rust/Cargo.toml" 2>"$outside/said"
}
sentence="there is no libcontactlib.a in $outside/nowhere, which CONTACT_LIBRARY_DIR names: run \`./install PREFIX\`"
without check || { cat "$outside/said"; fail "the wrapper cannot be checked without a library"; }
grep -qF "$sentence" "$outside/said" || { cat "$outside/said"; fail "cargo check does not say that there is no library"; }
without build && fail "the wrapper is built without a library"
grep -qF "error[E0080]: evaluation panicked: $sentence" "$outside/said" ||
    { cat "$outside/said"; fail "cargo build does not say that there is no library"; }
rustc --edition 2021 host/contact/build.rs -o "$outside/build" || fail "the wrapper's build script"
CARGO_CFG_TARGET_ARCH=aarch64 CARGO_CFG_TARGET_OS=linux CARGO_MANIFEST_DIR=$repository/host/contact "$outside/build" >"$outside/said"
grep -q '^cargo::warning=the proved library is for x86-64 Linux and this build is for aarch64 linux: build with `cargo build --target' "$outside/said" ||
    { cat "$outside/said"; fail "the wrapper does not say that the library is for another processor"; }
grep -q 'rustc-link-lib' "$outside/said" && fail "a library for another processor is linked"
echo "without a library, or for another processor, the wrapper can be checked, and says in one sentence why it cannot be built"
