# Tests of tools/definitions, sourced by ./test: the table in docs/understand/DEFINITIONS.md is what it makes of specs/
# as they are now, its pages have what stands above each definition, and it tells what has no comment.

# specs_copy FOLDER: what tools/definitions reads, in a folder of its own
specs_copy() {
    local name
    for name in crates/*/{src,specs}; do
        [ -d "$name" ] || continue
        mkdir -p "$1/${name%/*}"
        cp -r "$name" "$1/${name%/*}"
    done
    mkdir -p "$1/docs/understand"
    cp -r tools crates.txt "$1"
    cp docs/understand/DEFINITIONS.md "$1/docs/understand"
}

definitions() {
    local fresh=$work/definitions
    has_python tools/definitions || return 0
    if tools/definitions --check > "$work/out"; then pass; else
        fail "tools/definitions --check"
        cat "$work/out"
    fi
    specs_copy "$fresh"
    if "$fresh/tools/definitions" "$work/pages" > "$work/out" 2> "$work/err" &&
        grep -qF -- '- **`low_half`**: the low half of a register' "$work/pages/psci_abi.md"; then pass; else
        fail "the page of psci_abi lacks a definition's comment"
        cat "$work/out" "$work/err"
    fi
    if cmp -s {,"$fresh/"}docs/understand/DEFINITIONS.md; then pass; else fail "tools/definitions writes another table"; fi
    # a comment that is gone, a definition that is named by hand and is no more, a file that the table lacks
    sed -i '/^-- the low half of a register/d' "$fresh/crates/psci_abi/specs/Calls.antt"
    sed -i 's/psci_audit `IsLegal`/psci_audit `IsLegl`/' "$fresh/docs/understand/DEFINITIONS.md"
    cp "$fresh/crates/psci_abi/specs/"{Functions,Bits}.antt
    "$fresh/tools/definitions" --check > "$work/out" 2> "$work/err"
    echo $? > "$work/got"
    cat > "$work/lines" << 'END'
docs/understand/DEFINITIONS.md: psci_audit has no definition IsLegl
psci_abi: Calls.low_half has no comment
docs/understand/DEFINITIONS.md has another table than tools/definitions writes
END
    sed -i '/^[0-9]* crates, /d' "$work/out"
    answers "what tools/definitions tells"
    expect "what tools/definitions tells" 1
}
