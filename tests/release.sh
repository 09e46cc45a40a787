# Tests of the archive that tools/release makes, sourced by ../test: what is in it, by its sums, and that
# its program runs where nothing else is.

release() {
    local top_of name folder=$work/release
    has_python tools/release || return 0
    mkdir -p "$folder/room"
    # it refuses archives that are not there, or older than a source
    tools/release --into "$folder" > "$work/out" 2>&1 || for name in x86_64 aarch64; do
        ./psci prove lib --target "$name" < /dev/null > "$work/lib" 2>&1
    done
    if ! tools/release --into "$folder" > "$work/out" 2>&1; then
        fail "tools/release: $(tail -n 1 "$work/out")"
        return
    fi
    cp "$folder"/*.tar.gz "$work/first.tar.gz"
    cp "$folder"/*.deb "$work/first.deb"
    tools/release --into "$folder" > "$work/out" 2>&1
    if cmp -s "$work/first.tar.gz" "$folder"/*.tar.gz; then pass; else fail "two archives of the same files differ"; fi
    if cmp -s "$work/first.deb" "$folder"/*.deb; then pass; else fail "two packages of the same files differ"; fi
    if (cd "$folder" && sha256sum -c --quiet ./*.sha256) > /dev/null 2>&1; then pass; else fail "the sum of the archive"; fi
    tar -C "$folder/room" -xzf "$folder"/*.tar.gz
    top_of=$(echo "$folder"/room/*)
    (cd "$top_of" && sha256sum -c --quiet SHA256SUMS) > "$work/out" 2>&1 || fail "the sums in the archive"
    (cd "$top_of" && find . -type f ! -name SHA256SUMS ! -path './licenses/*' | sed 's|^\./||' | LC_ALL=C sort) > "$work/out"
    {
        printf '%s\n' LICENSE README VERSION bin/psci lib/x86_64/libpsci_ffi.a lib/aarch64/libpsci_ffi{,-strict-align}.a \
            lib/x86_64/pkgconfig/psci.pc lib/aarch64/pkgconfig/psci{,-strict-align}.pc \
            share/man/man1/psci.1 share/bash-completion/completions/psci \
            share/zsh/site-functions/_psci share/fish/vendor_completions.d/psci.fish \
            share/doc/gumdarts/{FORMATS,PORTING,REFERENCE,BOARDS,CHANGELOG}.md examples/host/{README,loop.c,player.c,player.h,pool.c,pool.h} \
            rust/{Cargo.toml,build.rs,src/{lib,heap,sys}.rs,examples/vcpu.rs}
        headers | sed 's|^|include/|'
        git ls-files examples | grep -E '^examples/[^/]*\.(psci|out)$|^examples/boards/.*\.(machine|calls|answers)$'
    } | LC_ALL=C sort > "$work/lines"
    answers "the files of the archive"
    for name in clap itoa memchr; do
        if [ -n "$(find "$top_of/licenses/$name" -type f)" ]; then pass; else fail "the license of $name is not there"; fi
    done
    in_an_empty_folder "$top_of"
    as_said "the archive, unpacked" "$top_of" tests/release-alone "$top_of"
    released_by_pkg_config "$top_of"
    own_words "$top_of"
    in_debian bookworm
    in_debian trixie
}

# released_by_pkg_config ARCHIVE: the host is built by what pkg-config says, and so is the crate
released_by_pkg_config() {
    local words
    command -v pkg-config > /dev/null || { skip "the archive by pkg-config" pkg-config; return; }
    words=$(PKG_CONFIG_PATH=$1/lib/x86_64/pkgconfig pkg-config --cflags --libs "psci >= 1.0.0")
    # shellcheck disable=SC2086
    if cc "$1"/examples/host/{loop,player,pool}.c $words -o "$work/loop" 2> "$work/err"; then pass; else
        fail "the archive by pkg-config: $(head -n 1 "$work/err")"
    fi
    "$work/loop" examples/lost-message.psci > "$work/out"
    cp examples/lost-message.out "$work/lines"
    answers "the host by pkg-config"
    ! has_cargo || vcpu_enters "$1/rust" -u PSCI_LIB PKG_CONFIG_PATH="$1/lib/x86_64/pkgconfig"
}

# as_said NAME FOLDER COMMAND..: what the README of the archive says works there
as_said() {
    cp tests/hosts/programs/linked.cpp "$2/.."
    if "${@:3}" > "$work/out" 2>&1 && [ "$(tail -n 1 "$work/out")" = "all is as the README says" ]; then pass; else
        fail "$1: $(tail -n 1 "$work/out")"
    fi
}

# the manual page has each option that the program's help names, and no other; so have the completions
own_words() {
    local name file
    for name in "" replay show storm threads; do
        # shellcheck disable=SC2086
        "$1/bin/psci" $name --help
    done | grep -oE -- '^ +(-[hV], )?--[a-z]+' | grep -oE -- '--[a-z]+' | sort -u > "$work/lines"
    sed 's/\\-/-/g' "$1/share/man/man1/psci.1" | grep -oE -- '--[a-z]+' | sort -u > "$work/out"
    answers "the options of the archive's manual page"
    for file in bash-completion/completions/psci zsh/site-functions/_psci; do
        grep -v '^ *#' "$1/share/$file" | grep -oE -- '[ "]?--[a-z]+' | grep -oE -- '--[a-z]+' | sort -u > "$work/out"
        answers "the options of the archive's $file"
    done
    if man -l --warnings "$1/share/man/man1/psci.1" 2>&1 > /dev/null | grep -q .; then fail "the archive's manual page"; fi
}

# in_debian SUITE: the archive in a Debian of this suite that has a compiler and nothing else
in_debian() {
    local folder root=$work/$1 kept=${GUMDARTS_CACHE:-$HOME/.cache/gumdarts}/debian/$1.tar
    [ -e "$kept" ] || { skip "the archive in Debian $1" "root of it, made by debootstrap,"; return; }
    [ "$(id -u)" = 0 ] || { skip "the archive in Debian $1" "right to be root"; return; }
    mkdir -p "$root"
    tar -C "$root" -xf "$kept"
    tar -C "$root/opt" -xzf "$work/release"/*.tar.gz
    cp tests/release-alone "$root/opt"
    folder=$(basename "$root"/opt/gumdarts-*)
    as_said "the archive in Debian $1" "$root/opt/$folder" chroot "$root" /opt/release-alone "/opt/$folder"
    rm -rf "$root/opt/$folder"
    installed "$1" "$root"
}

# installed SUITE ROOT: the package, installed, used and removed there
installed() {
    cp "$work/release"/*.deb "$2/opt"
    chroot "$2" sh -euc 'dpkg -i /opt/gumdarts_*.deb > /dev/null
        [ -z "$(dpkg --verify gumdarts)" ]
        psci --version | grep -qF " $(dpkg-query -f "\${Version}" -W gumdarts)"
        for script in /usr/share/doc/gumdarts/examples/*.psci; do psci replay < "$script" | cmp - "${script%.psci}.out"; done
        cd /usr/share/doc/gumdarts/examples
        cc host/loop.c host/player.c host/pool.c -lpsci_ffi -o /opt/loop
        /opt/loop lost-message.psci | cmp - lost-message.out
        for file in man/man1/psci.1 bash-completion/completions/psci doc/gumdarts/copyright; do [ -s "/usr/share/$file" ]; done
        [ -s /usr/lib/aarch64-linux-gnu/libpsci_ffi.a ]
        dpkg -r gumdarts > /dev/null
        [ ! -e /usr/bin/psci ] && [ ! -e /usr/share/doc/gumdarts ]
        echo "it is installed, used and removed"' > "$work/out" 2>&1
    if [ "$(tail -n 1 "$work/out")" = "it is installed, used and removed" ]; then pass; else
        fail "the package in Debian $1: $(tail -n 1 "$work/out")"
    fi
}

# in_an_empty_folder ARCHIVE: the program answers where there is nothing but it, and the loader and the C
# library that it names
in_an_empty_folder() {
    local root=$work/root file name
    mkdir -p "$root"
    cp "$1/bin/psci" "$root/psci"
    ldd "$1/bin/psci" | grep -oE '/[^ ]+' > "$work/needed"
    while read -r file; do
        mkdir -p "$root${file%/*}"
        cp -L "$file" "$root$file"
    done < "$work/needed"
    (unshare -r true) 2> /dev/null || [ "$(id -u)" = 0 ] || { skip "the program in an empty folder" unshare; return; }
    for name in start-second-core late-acknowledgement; do
        if [ "$(id -u)" = 0 ]; then
            chroot "$root" /psci replay < "examples/$name.psci" > "$work/out" 2> "$work/err"
        else
            unshare -r chroot "$root" /psci replay < "examples/$name.psci" > "$work/out" 2> "$work/err"
        fi
        echo $? > "$work/got"
        cp "examples/$name.out" "$work/lines"
        expect "the program of the archive in an empty folder" 0
        answers "the program of the archive in an empty folder"
    done
    if grep -qvE '/(ld-linux-x86-64|libc|libm|libgcc_s)\.so' "$work/needed"; then
        fail "the program needs more than the C library: $(tr '\n' ' ' < "$work/needed")"
    fi
}
