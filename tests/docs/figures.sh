# What the pages say of the C library in numbers, sourced by ./test after tests/hosts/ffi.sh: sizes, stack, memory, instructions.

# recounted WHAT WORD.. -- TEXT: what was counted is refused with these words, by a line that says the text
recounted() {
    local what=$1 words=()
    shift
    while [ "$1" != -- ]; do words+=("$1"); shift; done
    if bench/figures --compare "${words[@]}" > "$work/out" 2>&1; then
        fail "bench/figures lets this through: $what"
    elif grep -q -- "$2" "$work/out"; then pass; else
        fail "bench/figures does not name this: $what"
        head -n 5 "$work/out"
    fi
}

# overlooked WHAT PAGE EDIT TEXT: a page that says otherwise, by this edit of it, is refused
overlooked() {
    rm -rf "$work/pages"
    mkdir -p "$work/pages/docs/maintain" "$work/pages/docs/port"
    cp docs/maintain/COSTS.md "$work/pages/docs/maintain"
    cp docs/port/REFERENCE.md docs/port/TFA.md "$work/pages/docs/port"
    cp README.md "$work/pages"
    sed -i "$3" "$work/pages/docs/$2"
    if cmp -s "docs/$2" "$work/pages/docs/$2"; then fail "docs/$2 has no such line: $3"; return; fi
    recounted "$1" "$work/figures" --pages "$work/pages" -- "$4"
}

# unseen WHAT FILE EDIT TEXT: what was counted is refused by itself, with this edit of a file of it
unseen() {
    rm -rf "$work/edited"
    cp -r "$work/figures" "$work/edited"
    sed -i "$3" "$work/edited/$2"
    if cmp -s "$work/figures/$2" "$work/edited/$2"; then fail "nothing was counted as $3"; return; fi
    recounted "$1" "$work/edited" -- "$4"
}

# What the pages say of the library is so, no short search finds a dearer state than those that are stored, and no call is
# seen to take more stack than its bound. A page that says less of a call, or has a row too many or too few, is refused, and
# so is a dearest state that was chosen, and a bound by names that were not read.
figures() {
    local tool
    has_python "the figures of the C library" || return
    for tool in cc ld objdump; do
        command -v "$tool" > /dev/null || { skip "the figures of the C library" "$tool"; return; }
    done
    for tool in qemu-aarch64-static aarch64-linux-gnu-gcc; do
        command -v "$tool" > /dev/null || { skip "the turns on aarch64" "$tool"; break; }
    done
    say "counting what calls of the library take, some minutes"
    if bench/figures --check --keep "$work/figures" > "$work/out" 2>&1; then pass; else
        fail "the figures of the C library; bench/figures --write writes them"
        head -n 40 "$work/out"
    fi
    [ -d "$work/figures" ] || return
    overlooked "a call takes less" maintain/COSTS.md 's/^\(| CPU_SUSPEND, OS-initiated | [0-9,]* | [0-9,]* | \)[0-9,]*/\11,199/' \
        'CPU_SUSPEND, OS-initiated, 256: docs/maintain/COSTS.md says 1,199'
    overlooked "a call is not there" maintain/COSTS.md '/^| SYSTEM_SUSPEND, stops |/d' 'SYSTEM_SUSPEND, stops: docs/maintain/COSTS.md does not say'
    overlooked "a call that there is not" maintain/COSTS.md 's/^| CPU_OFF, stops |/| CPU_GONE, stops |/' 'CPU_GONE, stops: .* there is none'
    overlooked "a turn on the first page takes less" ../README.md 's/take 1,152 instructions/take 1,052 instructions/' \
        'README.md says 1,052'
    overlooked "a turn takes less" maintain/COSTS.md 's/^\(| SYSTEM_SUSPEND, wake-up | \)[0-9,]*/\1600/' 'wake-up, 4 cores: .* says 600'
    overlooked "a turn beside TF-A takes less" maintain/COSTS.md \
        's/^\(| CPU_SUSPEND to the system, OS-initiated, denied: the library | \)[0-9,]*/\1399/' \
        'denied: the library, 4 cores: .* says 399'
    overlooked "a stack is smaller" port/REFERENCE.md 's/^| `psci_close` | [0-9,]*/| `psci_close` | 432/' '`psci_close`, x86-64: .* says 432'
    overlooked "memory is less" port/REFERENCE.md 's/^| `(2 2)` | [0-9,]*/| `(2 2)` | 2,849/' '`(2 2)`, kept, bytes: .* says 2,849'
    for tool in 2.8 2.12; do
        if grep -qF "SYSTEM_SUSPEND, wake-up: TF-A $tool\", null" "$work/figures/fixed"; then
            skip "the turns of TF-A $tool" "source package of it, or no gcc 12.2,"
        else
            overlooked "TF-A $tool takes more" maintain/COSTS.md \
                "s/^\\(| SYSTEM_SUSPEND, wake-up: TF-A $tool | [0-9,]* | [0-9,]* | \\)[0-9,]*/\\19,999/" \
                "SYSTEM_SUSPEND, wake-up: TF-A $tool, 256: .* says 9,999"
        fi
    done
    overlooked "a sentence says less" port/TFA.md 's/`psci_open_board` takes [0-9,]*/`psci_open_board` takes 960/' 'TFA.md says 960'
    unseen "a state that was chosen" replayed \
        's/^\[[0-9]*, \(0, "psci_smc", "CPU_SUSPEND, OS-initiated", "2x2", "board"\)/[300, \1/' \
        'CPU_SUSPEND, OS-initiated on 2x2, board: .* and the stored list comes to 300'
    unseen "a bound without what calls itself" bounds 's/^\(\["psci_open_machine", {"x86-64": \)[0-9]*/\1160/' \
        'psci_open_machine: [0-9]* bytes of stack were taken, and the code is said to take 160'
}

# What the page says of the program and of a firmware that threads share is so; a table with another figure, and one with
# a row that the page has not, are refused
program_figures() {
    local edit
    has_python "the figures of the program" || return
    command -v valgrind > /dev/null || { skip "the figures of the program" valgrind; return; }
    if bench/program --keep "$work/counted" > "$work/out" 2>&1 && bench/program --compare "$work/counted" > "$work/out" 2>&1; then
        pass
    else
        fail "the figures of the program; bench/program --write writes them"
        head -n 20 "$work/out"
    fi
    [ -f "$work/counted" ] || return
    for edit in '/"instructions a line"/{n;s/[0-9]/&9/}' 's/sixteen clusters of 16/sixteen clusters of 15/' \
        '/"`(2 2)`"/{n;s/[0-9]/&0/}'; do
        sed "$edit" "$work/counted" > "$work/edited"
        if cmp -s "$work/counted" "$work/edited" || bench/program --compare "$work/edited" > "$work/out" 2>&1; then
            fail "bench/program lets this through: $edit"
        else pass; fi
    done
}
