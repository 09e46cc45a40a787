# Debian 13 as a user's machine, sourced by ../test: a root of it that tests/install makes, in which tests/debian-13 runs.

# what all of ./test plays, and everything
debian_13() { user_of_debian_13; }
debian_13_whole() { user_of_debian_13 whole; }

user_of_debian_13() {
    local what="Debian 13 as a user's machine" root=${GUMDARTS_CACHE:-$HOME/.cache/gumdarts}/debian/user-trixie last
    [ -d "$root" ] || { skip "$what" "root of it, made by debootstrap,"; return; }
    mkdir -p "$work"/tried/{root,changed,work}
    unshare --mount mount -t overlay none "$work/tried/root" \
        -o "lowerdir=$root,upperdir=$work/tried/changed,workdir=$work/tried/work" 2> /dev/null ||
        { skip "$what" "right to mount it"; return; }
    [ -f out/lib/aarch64/libpsci_ffi.a ] || { skip "$what" "out/lib/aarch64/libpsci_ffi.a"; return; }
    PROGRAM=$program tests/in-debian "$root" "$work/debian" tests/debian-13 "$@" > "$work/said" 2>&1
    last=$(tail -n 1 "$work/said")
    if [[ $last =~ ^[1-9][0-9]+' passed, 0 failed' ]]; then pass; else
        fail "$what"
        cat "$work/said"
    fi
    say "$what: $last"
    # a file that this Debian does not have is told
    PROGRAM=$program tests/in-debian "$root" "$work/without" sh -c 'rm -rf /usr/lib/llvm-*/lib/clang /usr/bin/dtc
        exec tests/install --missing' > "$work/said" 2>&1
    if [ "$(grep -cE '^(libclang-rt-dev|device-tree-compiler) ' "$work/said")" = 2 ]; then pass; else
        fail "$what: what is missing there is not told"
    fi
}
