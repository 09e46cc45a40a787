"""What measure, parts, probe and waits share: TF-A as it is and with the firmware inside, built for a try, and lists of
calls that the payload of hosts/payload plays on either."""
import argparse
import os
import subprocess
import sys
from importlib.machinery import SourceFileLoader
from importlib.util import module_from_spec, spec_from_loader

HERE = os.path.dirname(os.path.abspath(__file__))
TOP = os.path.dirname(os.path.dirname(HERE))
sys.path.insert(0, f"{TOP}/hosts/payload")
import assemble

ARCHIVE = f"{TOP}/out/lib/aarch64/libpsci_ffi-strict-align.a"
# of either build its name, and what hosts/tfa/run wants for it
BUILDS = (("stock", ["--stock"]), ("ours", []))

# the same with hooks_measure.c
MEASURED = ("--make", "HOOKS_MEASURE=1", "--clusters", "4")


def options(name, text, out):
    """What all of them take."""
    parser = argparse.ArgumentParser(prog=name, description=text, allow_abbrev=False,
                                     formatter_class=argparse.RawDescriptionHelpFormatter)
    add = parser.add_argument
    add("--release", choices=("bookworm", "trixie"), default="bookworm", help="with TF-A 2.8, as without, or with 2.12")
    add("--archive", metavar="FILE", default=ARCHIVE, help="the library, that of ./psci prove lib --target aarch64")
    add("--out", metavar="FOLDER", default=f"{TOP}/out/{out}", help="where both are built")
    return parser


def payload_run():
    """hosts/payload/run as a module."""
    loader = SourceFileLoader("payload_run", f"{TOP}/hosts/payload/run")
    module = module_from_spec(spec_from_loader("payload_run", loader))
    loader.exec_module(module)
    return module


def place(words, name):
    """Where this build of this release lies."""
    return f"{os.path.abspath(words.out)}{'' if words.release == 'bookworm' else '-2.12'}/{name}"


def built(words, name, more):
    """The folder of TF-A, built with these words for hosts/tfa/run."""
    ran = subprocess.run([f"{HERE}/run", "--release", words.release, "--archive", os.path.abspath(words.archive),
                          "--build-only", *more], check=False, text=True, stdout=subprocess.PIPE,
                         env={**os.environ, "TFA_OUT": place(words, name)})
    return ran.stdout.strip() or sys.exit(1)


def flash(tree, steps, folder, payload=None):
    """What QEMU boots by: TF-A, and the payload, built beside it where it is not given, with these lines of a list."""
    if not payload:
        beside = f"{os.path.dirname(tree)}/payload"
        subprocess.run(["make", "-s", "-C", f"{TOP}/hosts/payload", f"OUT={beside}"], check=True, stdout=sys.stderr)
        payload = f"{beside}/payload.bin"
    with open(payload, "rb") as file, open(f"{folder}/image", "wb") as image:
        image.write(assemble.image(file.read(), list(steps)))
    return payload_run().flash(tree, f"{folder}/image", folder)


def lines(name):
    """A list of calls of this folder."""
    with open(f"{HERE}/{name}.list", encoding="ascii") as file:
        return list(file)
