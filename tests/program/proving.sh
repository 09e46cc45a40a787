# Tests of ./psci prove, sourced by ./test: which crates it proves, what it keeps and builds.

# ./psci prove proves each crate that a program stands on, once, and builds it, where there is neither git nor a
# repository, too. Here commands stand for those of the kit, which make what they are asked for.
proving() {
    local name word kit=$work/kit fresh=$work/proving few=$work/few
    has_python "./psci prove" || return 0
    mkdir -p "$kit/bin" "$kit/toolchain/bin" "$fresh/tools" "$fresh/include"
    echo "no kit" > "$kit/KIT-ID"
    printf '#!/bin/sh\nexit 1\n' > "$kit/bin/rt"
    # an archive is the clang of the toolchain that it is built by
    cat > "$kit/bin/rattle" << 'END'
#!/bin/sh
while [ "$1" != -o ]; do [ "$1" != --toolchain ] || tools=$2; shift; done
case $2 in *.o) : > "$2" ;; *.a) cp "$tools/bin/clang" "$2" ;; *) mkdir "$2" ;; esac
END
    cat > "$kit/bin/rattle-link" << 'END'
#!/bin/sh
while [ "$1" != -o ]; do shift; done
printf '#!/bin/sh\necho %s built of "$@"\n' "${2##*/}" > "$2"
chmod +x "$2"
END
    printf '#!/bin/sh\nprintf "%%s;" "$@"\n' > "$kit/toolchain/bin/clang"
    chmod +x "$kit/bin"/* "$kit/toolchain/bin/clang"
    for name in crates/*/src; do
        mkdir -p "$fresh/$name"
        echo "//! Nothing." > "$fresh/$name/lib.rt"
    done
    cp psci crates.txt HANDLES "$fresh"
    cp include/*.h "$fresh/include"
    cp -r tools "$fresh"
    mkdir "$few"
    for name in sh env cp mkdir chmod; do ln -s "$(type -P "$name")" "$few/$name"; done
    ln -s "$(python3 -c 'import sys; print(sys.executable)')" "$few/python3"
    if (PATH=$kit/bin:$few; type -P git) > "$work/out"; then fail "there is git among a few commands"; fi
    for name in psci_replay psci_cli; do
        word=all
        [ "$name" = psci_cli ] || word=
        # shellcheck disable=SC2086
        XDG_CACHE_HOME=$work/cache PATH=$kit/bin:$few "$fresh/psci" prove $word < /dev/null \
            > "$work/out" 2> "$work/proved"
        echo $? > "$work/got"
        tail -n 1 "$work/proved" > "$work/err"
        expect "./psci prove $word" 0 "psci: built; ./psci runs it from now on"
        tools/repo.py below "$name" | tr ' ' '\n' | sort > "$work/lines"
        sed -n 's/^psci: proved .*(\(.*\))$/\1/p' "$work/proved" | sort > "$work/out"
        answers "the crates that ./psci prove $word proves"
        front_of "$fresh" replay
        echo "$name built of replay" > "$work/lines"
        answers "./psci replay after ./psci prove $word"
    done
    front_of "$fresh" threads --seed 1 --count 1
    echo "psci_cli built of threads --seed=1 --count=1" > "$work/lines"
    answers "./psci after ./psci prove all"
    tools/repo.py below psci_cli | tr ' ' '\n' | grep -vx psci_cli | sort > "$work/lines"
    find "$work/cache/gumdarts/proved" -name '*.rlib' | sed 's|.*/||; s|\.rlib$||' | sort > "$work/names"
    comm -23 "$work/lines" "$work/names" > "$work/out"
    : > "$work/lines"
    answers "each library that ./psci prove proves is kept"
    kept_of_gate "$kit" "$fresh"
    proving_lib "$kit" "$fresh"
}

# kept_of_gate KIT FOLDER: what `rt ci` has proved there is kept, but for a library that is older than a source of
# a crate below it, and ./psci prove does not prove it again
kept_of_gate() {
    local kit=$1 fresh=$2 name
    for name in psci_messages psci_board psci_abi; do
        mkdir -p "$fresh/crates/$name/out/rlib/$name.rlib"
        : > "$fresh/crates/$name/out/rlib/$name.rlib/of-the-gate"
    done
    touch -d "1 hour ago" "$fresh/crates/psci_abi/out/rlib/psci_abi.rlib"
    XDG_CACHE_HOME=$work/gate-cache PATH=$kit/bin:$PATH "$fresh/tools/prove" --keep > "$work/out" 2> "$work/err"
    echo $? > "$work/got"
    expect "tools/prove --keep" 0 "psci: kept 2 libraries that the gate has proved"
    XDG_CACHE_HOME=$work/gate-cache PATH=$kit/bin:$PATH "$fresh/psci" prove < /dev/null > "$work/out" 2> "$work/err"
    find "$work/gate-cache" -name of-the-gate | sed 's|.*/proved/||; s|-[^/]*/| |; s|/.*||' | sort > "$work/out"
    printf '%s\n' "psci_board psci_board.rlib" "psci_messages psci_messages.rlib" > "$work/lines"
    answers "what ./psci prove takes of the gate"
    rm -rf "$fresh"/crates/*/out/rlib
}
