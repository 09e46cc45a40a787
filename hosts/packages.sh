# Debian packages for guests, sourced by el3/run, tfa/run and kvm/run, which have `say`, `stop` and `cache`.
# It installs nothing and needs no rights: apt gets lists of its own, in the folder $cache/apt.
mirror=http://deb.debian.org/debian
release=bookworm kernels='image-6.1.0-[0-9]+' xen=4.17

# of_release NAME: the packages of this release of Debian: bookworm's, as without, or those of another one, in a folder of
# their own
of_release() {
    case $1 in
        bookworm) return ;;
        trixie) kernels='image-6.12.[0-9]+[+]deb13' xen=4.20 ;;
        trixie-backports) kernels='binary-7.[0-9]+.[0-9]+[+]deb13' xen=4.20 ;;
        sid) ;;
        *) stop "unknown release $1; expected bookworm, trixie, trixie-backports or sid" ;;
    esac
    release=$1 cache=${cache%/"$1"}/$1
}

# own_apt [COMPONENT TRUST KINDS]: Debian's main, by its key, of both kinds
own_apt() {
    local apt=$cache/apt it suites=("$release") component=${1:-main}
    local trust=${2:-signed-by=/usr/share/keyrings/debian-archive-keyring.gpg}
    [ "$release" = "${release%-backports}" ] || suites+=("${release%-backports}")
    mkdir -p "$apt/lists/partial" "$apt/archives/partial"
    : > "$apt/status"
    for it in ${3:-deb deb-src}; do
        printf "$it [$trust] $mirror %s $component\n" "${suites[@]}"
    done > "$apt/sources"
    cat > "$apt/conf" <<CONF
Dir::Etc::SourceList "$apt/sources"; Dir::Etc::SourceParts "-";
Dir::State::Lists "$apt/lists"; Dir::State::Status "$apt/status"; Dir::Cache "$apt";
APT::Architecture "arm64"; APT::Architectures { "arm64"; }; APT::Sandbox::User "$(id -un)";
CONF
    export APT_CONFIG=$apt/conf
    apt-get update -qq || stop "cannot download the package lists of $mirror"
}

has_guest() {
    [ -x "$cache/packages/bin/busybox" ] && compgen -G "$cache/packages/boot/vmlinuz-*" > /dev/null
}

# A kernel and busybox for arm64, unpacked into $cache/packages.
fetch_guest() {
    local image wanted="^linux-$kernels-cloud-arm64\$" have=
    mkdir -p "$cache"
    cd "$cache"
    own_apt
    say "downloading a kernel of $release (21 MB) and busybox"
    for image in $(apt-cache search --names-only "$wanted" | sed 's/ .*//' | sort -rV); do
        ! apt-get download -qq "$image" 2> /dev/null || { have=$image; break; } # a mirror may lack what its lists name
    done
    [ -n "$have" ] || stop "no package $wanted to download"
    apt-get download -qq busybox-static || stop "cannot download busybox-static of arm64"
    for image in "$have"_*.deb busybox-static*.deb; do dpkg-deb -x "$image" packages; done
    mkdir -p packages/bin packages/boot
    [ -e packages/bin/busybox ] || ln -s ../usr/bin/busybox packages/bin/busybox # there it is from trixie on
    for image in packages/usr/lib/modules/*/vmlinuz; do # and there from 7.3 on
        [ ! -e "$image" ] || ln -s "../${image#packages/}" "packages/boot/vmlinuz-$(basename "$(dirname "$image")")"
    done
    cd - > /dev/null
}

has_trees() { compgen -G "$cache/trees/boot/vmlinuz-*" > /dev/null; }

# Debian's kernel for arm64 that has drivers of boards, and the device trees of these, into $cache/trees.
fetch_trees() {
    local image
    mkdir -p "$cache/trees/packages"
    cd "$cache/trees/packages"
    own_apt
    image=$(apt-cache search --names-only '^linux-image-6.1.0-[0-9]+-arm64$' | sort -V | tail -n 1)
    say "downloading ${image%% *} with its device trees (70 MB)"
    apt-get download -qq "${image%% *}" && dpkg-deb -x "${image%% *}"_*.deb unpacked ||
        stop "the package ${image%% *} can't be had"
    rm -rf ../usr ../boot
    mv unpacked/usr unpacked/boot ..
    cd - > /dev/null
    rm -rf "$cache/trees/packages"
}

has_kexec() { [ -e "$cache/kexec/fetched" ]; }

# The command kexec of the guest, with the libraries that it names, into $cache/kexec.
fetch_kexec() {
    local package packages=(kexec-tools libc6 zlib1g "libxenmisc$xen" libxencall1 libxentoolcore1
        libxendevicemodel1 libxenevtchn1 libxenforeignmemory1 libxengnttab1 libxentoollog1)
    mkdir -p "$cache/kexec"
    cd "$cache/kexec"
    own_apt
    say "downloading kexec and its libraries (4 MB)"
    for package in "${packages[@]}"; do
        apt-get download -qq "$package" || stop "cannot download $package of arm64"
        dpkg-deb -x "${package}"_*.deb .
    done
    touch fetched
    cd - > /dev/null
}

# for_kexec KERNEL INITRAMFS [NAME=FILE..]: makes the guest's file system anew with what it needs for
# kexec: the command, its libraries, the kernel, and the file system as it was. NAMEs are in both.
for_kexec() {
    local hosts library libraries=(ld-linux-aarch64.so.1 libc.so.6 libz.so.1 "libxenctrl.so.$xen") further
    libraries+=(libxen{call,toolcore,devicemodel,evtchn,foreignmemory,gnttab,toollog}.so.1)
    further=(kernel="$1" initramfs="$2" bin/kexec="$(find "$cache/kexec" -path "*/sbin/kexec" -print -quit)" "${@:3}")
    for library in "${libraries[@]}"; do
        further+=("lib/$library=$(find "$cache/kexec" -name "$library" -print -quit)")
    done
    hosts=$(dirname "${BASH_SOURCE[0]}")
    "$hosts/linux/initramfs" "$cache/packages/bin/busybox" "$hosts/linux/init" "${further[@]}" > "$2.both"
    mv "$2.both" "$2"
}

has_tfa() { [ -d "$cache/tfa/source" ]; }

# Which version it is of.
tfa_version() {
    sed -nE 's/^VERSION_(MAJOR|MINOR)\s*:=\s*//p' "$cache/tfa/source/Makefile" | paste -s -d .
}

# The source of TF-A, into $cache/tfa/source.
fetch_tfa() {
    mkdir -p "$cache/tfa"
    cd "$cache/tfa"
    own_apt
    say "downloading TF-A's source of $release (5 MB)"
    apt-get source -qq --download-only arm-trusted-firmware ||
        stop "cannot download the source package arm-trusted-firmware"
    dpkg-source -x arm-trusted-firmware_*.dsc unpacked > unpacked.log 2>&1 ||
        stop "see $cache/tfa/unpacked.log"
    mv unpacked source
    cd - > /dev/null
}

# The source of kvmtool, which Ubuntu has and no Debian, and libfdt, into $cache/kvmtool. What is believed of the source
# is its sum.
fetch_kvmtool() {
    local at=$cache/kvmtool sum=5a70657add5663391f689f3dc43393093abddb28df0543229498b01fe0fdbaa5
    mkdir -p "$at"
    cd "$at"
    own_apt
    apt-get download -qq libfdt-dev || stop "cannot download libfdt-dev of arm64"
    dpkg-deb -x libfdt-dev_*.deb .
    (
        mirror=http://archive.ubuntu.com/ubuntu release=jammy cache=$at/jammy
        own_apt universe trusted=yes deb-src 2> /dev/null
        say "downloading kvmtool's source (200 KB)"
        apt-get source -qq --download-only --tar-only kvmtool
    ) || stop "cannot download the source package kvmtool of Ubuntu"
    echo "$sum  $(echo kvmtool_*.orig.tar.xz)" | sha256sum --quiet -c || stop "kvmtool's source has another sum"
    mkdir -p source
    tar -xJf kvmtool_*.orig.tar.xz -C source --strip-components=1
    rm -rf jammy
    cd - > /dev/null
}
