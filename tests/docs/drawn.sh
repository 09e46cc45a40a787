# Tests of the pictures that the pages show, sourced by ./test: each is what its tool draws, and can be read in both
# schemes.

# each picture of docs/runs, with the script and the words that it is drawn by
pictures() {
    cat << 'END'
cpu-on examples/start-second-core --cores 0,3
late-acknowledgement examples/late-acknowledgement
late-down examples/wake-overtakes-down --from 4 --to 9 --cores 3
END
}

# the pictures of docs/runs/, made again; there are no others; all can be read in a dark scheme, too
drawn() {
    local name script words
    has_python drawn || return
    while read -r name script words; do
        show --json < "$script.psci"
        # shellcheck disable=SC2086
        tools/draw $words < "$work/out" > "$work/drawn" 2> "$work/err"
        echo $? > "$work/got"
        cp "docs/runs/$name.svg" "$work/lines"
        cp "$work/drawn" "$work/out"
        expect "draw $name" 0
        answers "draw $name"
    done < <(pictures)
    basename -s .svg docs/runs/*.svg > "$work/out"
    pictures | cut -d ' ' -f 1 > "$work/lines"
    answers "the pictures of docs/runs"
    if tests/docs/schemes docs/runs/*.svg > "$work/out" 2>&1; then pass; else
        fail tests/docs/schemes
        head -n 20 "$work/out"
    fi
}

# the pictures of the crates and of a port's steps are what is drawn of crates.txt and steps.txt. A crate or step that
# is not in them is found, an order of steps that no port may take, an act or a function that is nowhere, a rule that
# has changed
diagrams() {
    has_python tools/diagrams || return
    if tools/diagrams --check > "$work/out" 2>&1 && tests/docs/schemes docs/*/*.svg >> "$work/out" 2>&1; then pass; else
        fail tools/diagrams
        head -n 20 "$work/out"
    fi
    local path edit wanted fresh=$work/diagrams
    while IFS='|' read -r path edit wanted; do
        rm -rf "$fresh"
        mkdir -p "$fresh/crates/psci_port"
        cp -r tools docs include crates.txt "$fresh"
        cp -r crates/psci_port/specs "$fresh/crates/psci_port"
        sed -i "$edit" "$fresh/$path"
        "$fresh/tools/diagrams" --check > "$work/out" 2>&1
        if cmp -s "$path" "$fresh/$path" || ! grep -qF -- "$wanted" "$work/out"; then
            fail "tools/diagrams lets this through: $path, $edit"
        else pass; fi
    done << 'END'
docs/maintain/crates.svg|s/psci_osi/psci_oso/|crates.svg is not what tools/diagrams draws
crates.txt|/^psci_storm/s/ psci_world / /|crates.svg is not what tools/diagrams draws
docs/port/steps.svg|s/cleans its caches/keeps its caches/|steps.svg is not what tools/diagrams draws
docs/port/steps.txt|s/cleans its caches/keeps its caches/|steps.svg is not what tools/diagrams draws
docs/port/steps.txt|/^Stands/{h;d};/^Delivers/{G}|Delivers (psci_ctl_deliver, once it stands) comes before it may: standing
docs/port/steps.txt|/^Unlocks/d|Stands (says that it stands, last of all) comes before it may: free
docs/port/steps.txt|s/psci_smc/psci_call/|no header has psci_call
docs/port/steps.txt|s/^Writes Opens/Opens Writes/|Opens (its start, then its door) comes before it may: written
crates/psci_port/specs/Rules.antt|s/^May b p (Opens c)/May b p (Opened c)/|there is no act Opens
crates/psci_port/specs/Rules.antt|s/≡ Leaving) × LacksLock p c/≡ Leaving)/|the rules say of Stands: (stage_at p c ≡ Leaving)
END
}
