# shellcheck shell=bash
# Sourced by ./test: its parts, and what each of them took: seconds of the clock, and seconds of all cores together. The
# second figure is what grows with proofs and runs; the first depends on what else the machine does.

part_names=() part_clock=() part_cores=()
ticks=$(getconf CLK_TCK)

# children_seconds PID: what the children of a process have used, as far as they have ended.
children_seconds() {
    local fields
    # after the name in brackets, the user and system ticks of the children are the 14th and 15th field
    read -ra fields <<<"$(sed 's/.*) //' "/proc/$1/stat" 2>/dev/null)"
    echo $(((${fields[13]:-0} + ${fields[14]:-0}) / ticks))
}

part() { # NAME CLOCK CORES
    part_names+=("$1") part_clock+=("$2") part_cores+=("$3")
}

begin() { # NAME: a part begins
    begun=$1 begun_clock=$SECONDS begun_cores=$(children_seconds $$)
}

end() { # the part that was begun ends
    part "$begun" $((SECONDS - begun_clock)) $(($(children_seconds $$) - begun_cores))
}

# prove_all LOG: rt ci, its words printed but for its last line. One part, since edits are tried beside the proofs.
prove_all() {
    local log=$1 line last='' crates=0 edits=0 used=0 now prover began=$SECONDS
    : >"$log"
    rt ci >"$log" 2>&1 &
    prover=$!
    while IFS= read -r line; do
        if [[ $line == "rt: "* ]]; then
            now=$(children_seconds $prover)
            [ "$now" -le $used ] || used=$now
        fi
        case $line in
        "rt: must-fail "*) edits=$((edits + 1)) ;;
        "rt: "*" its tests"* | *" NOT PROVED"*) ;;
        "rt: "*" proved" | "rt: "*" is kept: "*) crates=$((crates + 1)) ;;
        esac
        [ -z "$last" ] || echo "$last"
        last=$line
    done < <(tail -n +1 -s 0.2 -f --pid=$prover "$log")
    part "$crates crates, $edits must-fail edits, the stored frames" $((SECONDS - began)) $used
    wait $prover
}

# side_by_side NAME..: the functions job_NAME, as many at a time as there are cores; what each said is printed once all
# have ended, in the order of the names. Not so where one of them fails.
side_by_side() {
    local name running=0 cores bad=0
    cores=$(nproc)
    for name in "$@"; do
        [ $running -lt "$cores" ] || { wait -n; running=$((running - 1)); }
        (
            began=$SECONDS
            "job_$name" >"$logs/$name.said" 2>&1
            echo $? >"$logs/$name.status"
            echo "  $name ended after $((SECONDS - began)) s"
        ) &
        running=$((running + 1))
    done
    wait
    for name in "$@"; do
        sed 's/^/  /' "$logs/$name.said"
        [ "$(cat "$logs/$name.status")" = 0 ] || bad=1
    done
    return $bad
}

show_times() {
    local i clock=0 cores=0
    echo
    printf '%-56s %10s %14s\n' "time by part" seconds core-seconds
    for i in "${!part_names[@]}"; do
        printf '%-56s %10d %14d\n' "${part_names[i]}" "${part_clock[i]}" "${part_cores[i]}"
        clock=$((clock + part_clock[i])) cores=$((cores + part_cores[i]))
    done
    printf '%-56s %10d %14d\n' "whole, on $(nproc) cores of $(uname -m)" $clock $cores
    echo
}
