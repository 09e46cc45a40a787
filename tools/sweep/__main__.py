"""What an engine starts, on this machine or another one: python3 tools/sweep chunk FOLDER NUMBER

It does one chunk of the sweep in FOLDER, and needs neither the kit nor a program but that in FOLDER.
"""
import os
import signal
import sys

sys.dont_write_bytecode = True
sys.path[0] = os.path.dirname(os.path.dirname(os.path.abspath(__file__)))
from sweep import chunk

if __name__ == "__main__":
    if len(sys.argv) != 4 or sys.argv[1] != "chunk" or not sys.argv[3].isdigit():
        sys.exit(__doc__)
    # who ends a job asks first: then what was made for a while goes, too
    signal.signal(signal.SIGTERM, lambda *_: sys.exit(chunk.UNFINISHED))
    sys.exit(chunk.main(sys.argv[2], int(sys.argv[3])))
