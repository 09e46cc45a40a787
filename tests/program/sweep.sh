# Sweeps over ranges of seeds (docs/compare/SWEEP.md), sourced by ./test after tests/program/program.sh: those of this
# machine, with faults that have to show, and of farms that stand on it, where their packages are here.

# stories of sweeps that are ended, begun again, cut otherwise and spoiled
sweeps() {
    has_python tests/program/swept || return
    if tests/program/swept "$program" "$work/sweeps" > "$work/out" 2>&1; then pass; else
        fail tests/program/swept
        tail -n 20 "$work/out"
    fi
    missing_stories
}

# what tests/program/swept says that cannot run here
missing_stories() {
    local story what
    while IFS=: read -r story what; do skip "the story of sweeps $story" "${what# }"; done \
        < <(sed -n 's/^missing //p' "$work/out")
}

# a chunk that is counted twice, a result that is taken half written, and other faults of tests/program/swept-faults.txt
wrong_sweeps() {
    has_python "tests/program/swept --planted" || return
    if tests/program/swept --planted "$program" "$work/wrong-sweeps" > "$work/out" 2>&1; then pass; else
        fail "tests/program/swept --planted"
        tail -n 20 "$work/out"
    fi
    missing_stories
}

# Slurm and logins over ssh with a node that goes away, by each kind that needs no peer; GNU parallel with a worker
# that is killed
swept_farms() {
    local way status
    for way in parallel {ssh,slurm}{,\ threads,\ lists,\ fuzz}; do
        has_python "tests/program/swept-farm $way" || continue
        status=0
        # shellcheck disable=SC2086
        tests/program/swept-farm "$program" "$work/farm-${way/ /-}" $way > "$work/out" 2>&1 || status=$?
        case $status in
            0) pass ;;
            77) skip "a sweep by $way" "$(tail -n 1 "$work/out")" ;;
            *)
                fail "tests/program/swept-farm $way (status $status)"
                tail -n 20 "$work/out"
                ;;
        esac
    done
}
