"""The firmware as a C library, built over the libraries that tools/prove has proved and kept.

Of each machine one check of psci_ffi, which is kept beside what is proved of it, and archives that
are built of it:

    x86_64    libpsci_ffi.a                whose loops make one turn at a time
    aarch64   libpsci_ffi.a                of general registers alone
              libpsci_ffi-strict-align.a   of these, and each access is aligned as it is wide

They come into out/lib/MACHINE/, with the headers of what is in them, with a file of each for
pkg-config and with SHA256SUMS, which `sha256sum -c` reads. The same sources give the same bytes.

Before any proof the same sources come into out/lib/MACHINE-unproved/, by hosts/beside/archives, in a
minute. Such an archive has the symbol psci_unproved, by which a port says so in its record.

The compiler has no words for the flags of an archive: it calls the clang of its toolchain's folder.
So an archive with flags has a folder of its own, of links to what the toolchain has, where clang is
a script of one line that calls the toolchain's with these flags before all words that it was given.
"""
import glob
import hashlib
import os
import re
import shutil
import subprocess
import sys
import tempfile
from collections import namedtuple

import repo
from sources import KIT

CRATE = "psci_ffi"
# what is declared there is in the archives; include/psci_beside.h goes with hosts/beside/beside.c
HEADERS = ("psci.h", "psci_ctl.h", "psci_port.h", "psci_guest.h", "psci_record.h", "psci_heap.h")

# A file of the library, and the flags of clang that it is compiled with besides those of a build.
Archive = namedtuple("Archive", "file flags")
GENERAL = "-mgeneral-regs-only"
# Loops go over levels, of which there are four at most, and over the children of one domain. For aarch64 clang makes one
# turn of such a loop at a time by itself.
TURNS = ("-mllvm", "-unroll-runtime=0")
# What changes the firmware on behalf of two calls is compiled in place in both: less would make CPU_OFF a fifth dearer.
IN_PLACE = ("-mllvm", "-inline-threshold=650")
# and for aarch64, where accesses that are aligned take the most room, a little less is
LESS_IN_PLACE = ("-mllvm", "-inline-threshold=570")
# A loop begins where it begins: what fills the bytes before it is never executed, and counts.
PACKED = ("-falign-loops=1",)
# Where each access is aligned as it is wide, a number is put together of its bytes. That is done where they are read,
# and not moved to where the number is used: until then each byte would have a place of its own on the stack.
TOGETHER = ("-mllvm", "-disable-machine-sink")

ARCHIVES = {
    "x86_64": (Archive("libpsci_ffi.a", (*TURNS, *PACKED, *IN_PLACE)),),
    "aarch64": (Archive("libpsci_ffi.a", (GENERAL, *LESS_IN_PLACE)),
                Archive("libpsci_ffi-strict-align.a",
                        (GENERAL, "-mstrict-align", *LESS_IN_PLACE, *TOGETHER))),
}


# what hosts/beside/archives calls these archives where they are not proved
UNPROVED = {"x86_64": ("unchecked",), "aarch64": ("aarch64", "aarch64-strict-align")}


def asked(words):
    """The machine that these words ask for, by --target MACHINE, or none for x86_64; and whether --unproved is there."""
    is_unproved, words = "--unproved" in words, [it for it in words if it != "--unproved"]
    words = [part for word in words for part in word.split("=", 1)]
    if not words:
        return "x86_64", is_unproved
    if len(words) != 2 or words[0] != "--target" or words[1] not in ARCHIVES:
        names = " or ".join(ARCHIVES)
        sys.stderr.write(f"psci: prove lib takes --target {names} and --unproved, and no other word\n")
        sys.exit(2)
    return words[1], is_unproved


def toolchain(folder, flags):
    """The kit's toolchain, or where there are flags one in the folder, whose clang has them, too."""
    kit = f"{KIT}/toolchain"
    if not flags:
        return kit
    os.makedirs(f"{folder}/bin")
    for path in [*glob.glob(f"{kit}/*"), *glob.glob(f"{kit}/bin/*")]:
        name = os.path.relpath(path, kit)
        if name not in ("bin", "bin/clang"):
            os.symlink(path, f"{folder}/{name}")
    with open(f"{folder}/bin/clang", "w", encoding="utf-8") as file:
        file.write(f"#!/bin/sh\nexec '{kit}/bin/clang' {' '.join(flags)} \"$@\"\n")
    os.chmod(f"{folder}/bin/clang", 0o755)
    return folder


def pkg_config(archive, headers="${pcfiledir}", libraries="${pcfiledir}"):
    """The file that tells pkg-config of an archive, and its name: headers and archive are in these folders."""
    library = archive.file.removeprefix("lib").removesuffix(".a")
    name = library.replace("psci_ffi", "psci")
    version = re.search(r"PSCI_VERSION_OF_LIBRARY 0x(..)(..)(..)", repo.text_of(f"{repo.TOP}/include/psci.h"))
    return f"{name}.pc", "\n".join([
        f"Name: {name}", "Description: firmware and power controller of PSCI 1.1",
        f"Version: {'.'.join(str(int(it, 16)) for it in version.groups())}",
        f"Cflags: -I{headers}", f"Libs: -L{libraries} -l{library}", ""])


def sums(folder):
    """Writes the SHA-256 of each file of a folder into it."""
    lines = []
    for name in sorted(os.listdir(folder)):
        with open(f"{folder}/{name}", "rb") as file:
            lines.append(f"{hashlib.sha256(file.read()).hexdigest()}  {name}\n")
    with open(f"{folder}/SHA256SUMS", "w", encoding="utf-8") as file:
        file.writelines(lines)


def check(proving, words, checked):
    """Proves the crate, unless that is kept of the libraries as they are now."""
    sources = proving.sources
    below = "".join(f"{name} {os.stat(sources.place(name)).st_mtime_ns}\n"
                    for name in sources.names if name != CRATE)
    known = f"{checked}.below"
    if os.path.isdir(checked) and os.path.exists(known) and repo.text_of(known) == below:
        return
    proving.call(CRATE, [f"{KIT}/bin/rattle", "check", *words, "--logic-built",
                         f"{KIT}/logic_built", "--jobs", str(min(proving.most, 4)), "-o", checked])
    repo.write(os.path.dirname(known), {os.path.basename(known): below})


def build(proving, machine):
    """Builds the archives of a machine, once what they stand on is proved."""
    sources = proving.sources
    words = [*sources.words(CRATE, "src/lib.rt"), "--crate-type", "staticlib",
             "--target", f"{machine}-unknown-linux-gnu"]
    checked = f"{os.path.dirname(sources.place(CRATE))}/checked-{machine}"
    os.makedirs(os.path.dirname(checked), exist_ok=True)
    os.utime(os.path.dirname(checked))
    check(proving, words, checked)
    made = f"{proving.room}/lib"
    os.makedirs(made)
    for archive in ARCHIVES[machine]:
        tools = toolchain(f"{proving.room}/{archive.file}.toolchain", archive.flags)
        proving.call(CRATE, [f"{KIT}/bin/rattle", "build", *words, "--crate-checked", checked,
                             "--toolchain", tools, "--backend", "llvm",
                             "-o", f"{made}/{archive.file}"])
    hand_out(machine, made)


def hand_out(machine, made, more=""):
    """Puts what was made of the archives of a machine into its folder of out/lib, with what goes with them."""
    for header in HEADERS:
        shutil.copyfile(f"{repo.TOP}/include/{header}", f"{made}/{header}")
    repo.write(made, dict(pkg_config(it) for it in ARCHIVES[machine]))
    sums(made)
    folder = f"{repo.TOP}/out/lib/{machine}{more}"
    shutil.rmtree(folder, ignore_errors=True)
    shutil.copytree(made, folder)


def unproved(machine):
    """Compiles the archives of a machine before any proof."""
    kinds = UNPROVED[machine]
    with tempfile.TemporaryDirectory(prefix="psci-unproved-") as made:
        if subprocess.run([f"{repo.TOP}/hosts/beside/archives", "--unproved", *kinds], stdout=subprocess.DEVNULL,
                          stdin=subprocess.DEVNULL, check=False).returncode:
            sys.exit(1)
        for kind, archive in zip(kinds, ARCHIVES[machine]):
            shutil.copyfile(f"{repo.TOP}/out/beside/archives/{kind}.a", f"{made}/{archive.file}")
        hand_out(machine, made, "-unproved")
