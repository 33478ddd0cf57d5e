#!/usr/bin/env bash
# Proves and builds what is linked or run outside the proofs, and puts it where host/ and the scripts look for it:
#
#     tools/build.sh library     target/staticlib/libcontactlib.a, which hosts link, of the crate contactlib_c
#     tools/build.sh probes      target/staticlib/libprobes.a, which the runs of host/ link, of the crate probes
#     tools/build.sh program     target/bin/contact, of the crate contact
#
# Several may be named. What is proved already is not proved again. What rt says goes on as it comes; the status is not 0
# where something is not proved or not built.
set -u
cd "$(dirname "$0")/.." || exit 1

for what in "$@"; do
    case $what in
    library) crate=contactlib_c verb=lib made=libcontactlib_c.a to=target/staticlib/libcontactlib.a ;;
    probes) crate=probes verb=lib made=libprobes.a to=target/staticlib/libprobes.a ;;
    program) crate=contact verb=run made=contact to=target/bin/contact ;;
    *) echo "tools/build.sh: there is no $what: library, probes or program"; exit 2 ;;
    esac
    # rt builds in the crate's folder; a program it runs as well, here on an input of no frame
    (cd "crates/$crate" && rt "$verb" </dev/null) || { echo "tools/build.sh: the $what was not built"; exit 1; }
    install -D "crates/$crate/out/$made" "$to" || exit 1
done
