"""The server of `./psci try`: it gives out one page, and answers the scripts that the page sends.

It listens on 127.0.0.1 alone, and refuses what another site's page asks a browser to send. A script
and its run have limits in size, time and memory. No name that comes in is taken for a file.
"""
import io
import json
import re
import resource
import signal
import subprocess
import sys
import threading
from http.server import BaseHTTPRequestHandler, ThreadingHTTPServer

from front import scripts, told

from . import clock, faults, page, shown, stories, window

# the longest script in bytes and in lines, the processor seconds of a run, its bytes of memory and of output; where the
# machine is busy it may take three times as long
MOST_BYTES, MOST_LINES, SECONDS = 128 * 1024, 5000, 5
MEMORY, MOST_OUTPUT = 1 << 30, 64 << 20
# what the page may do: run its own scripts, and ask this server
POLICY = ("default-src 'none'; style-src 'unsafe-inline'; script-src 'unsafe-inline'; "
          "connect-src 'self'; frame-ancestors 'none'")
TOO_LONG = faults.fault(f"the run took more than {SECONDS} seconds")
# runs at one time
AT_ONCE = threading.Semaphore(2)


def limit():
    """Sets the limits of a run, in its process."""
    resource.setrlimit(resource.RLIMIT_CPU, (SECONDS, SECONDS + 1))
    resource.setrlimit(resource.RLIMIT_DATA, (MEMORY, MEMORY))


def run_of(program, script):
    """The run of a script as the page has it, and the fault that ended it, of a line or of none."""
    if script.count("\n") > MOST_LINES:
        return None, faults.fault(f"here a script has at most {MOST_LINES} lines", MOST_LINES + 1)
    try:
        with AT_ONCE:
            ran = subprocess.run([program, "show", "--json"], input=scripts.plain_of(script.encode()),
                                 timeout=3 * SECONDS, capture_output=True, check=False,
                                 preexec_fn=limit)
    except subprocess.TimeoutExpired:
        return None, TOO_LONG
    except OSError as why:
        return None, faults.fault(f"the program cannot be started: {why.strerror}")
    if ran.returncode == -signal.SIGXCPU:
        return None, TOO_LONG
    said = ran.stderr.decode(errors="replace")
    lines = script.split("\n")
    fault = faults.fault_of(said, ran.returncode, told.place(said, lambda at: lines[at - 1]))
    if fault and fault["line"] is None:
        print(f"psci try: the program ended with status {ran.returncode}, and said:\n{said}", file=sys.stderr, flush=True)
    return packed(ran.stdout[:MOST_OUTPUT].decode(errors="replace")), fault


def packed(text):
    """The rows that the program wrote, as the page has them; nothing if there is none."""
    # what a signal cut off in the middle of a line is left out
    run = shown.Run(io.StringIO(text[:text.rfind("\n") + 1]))
    if run.board is None:
        return None
    found = page.Packed(window.Window(run.board, window.WHOLE), clock.Clock()).read(run)
    return found.value() if found.count else None


class Page(BaseHTTPRequestHandler):
    """What a browser asks for: the page, or the run of a script."""

    server_version, sys_version = "psci", ""

    def do_GET(self):
        if self.path != "/":
            self.answer(404, "text/plain", b"there is nothing here but /\n")
        elif self.is_ours():
            self.answer(200, "text/html; charset=utf-8", self.server.text)

    def do_POST(self):
        if self.path != "/run":
            self.answer(404, "text/plain", b"there is nothing here but /run\n")
        elif self.is_ours():
            self.run_script()

    def run_script(self):
        """Answers the script that is sent."""
        length = self.headers.get("Content-Length", "")
        if not re.fullmatch(r"[0-9]{1,9}", length):
            return self.answer(411, "text/plain", b"how long is it?\n")
        if int(length) > MOST_BYTES:
            return self.answer(413, "text/plain", b"this script is too long\n")
        try:
            run, fault = run_of(self.server.program, self.rfile.read(int(length)).decode())
        except UnicodeDecodeError:
            return self.answer(400, "text/plain", b"a script is UTF-8 text\n")
        said = json.dumps({"run": run, "fault": fault}, separators=(",", ":")).encode()
        return self.answer(200, "application/json", said)

    def is_ours(self):
        """Whether this comes from the page itself; if not, it is refused."""
        hosts = [f"{name}:{self.server.server_port}" for name in ("127.0.0.1", "localhost")]
        origins = [None, *(f"http://{host}" for host in hosts)]
        if self.headers.get("Host") in hosts and self.headers.get("Origin") in origins:
            return True
        self.answer(403, "text/plain", b"only the page itself may ask\n")
        return False

    def answer(self, status, kind, body):
        self.send_response(status)
        self.send_header("Content-Type", kind)
        self.send_header("Content-Length", str(len(body)))
        self.send_header("Cache-Control", "no-store")
        self.send_header("X-Content-Type-Options", "nosniff")
        self.send_header("Content-Security-Policy", POLICY)
        self.end_headers()
        self.wfile.write(body)

    def setup(self):
        super().setup()
        # who sends nothing is not waited for
        self.connection.settimeout(2 * SECONDS)

    def log_message(self, format, *words):
        """Says nothing of each request."""


def opened(program, port, path=None):
    """The server, which listens; 0 is any port that is free. It begins with the script of this file."""
    server = ThreadingHTTPServer(("127.0.0.1", port), Page)
    server.daemon_threads = True
    server.program = program
    text = page.assembled("psci try", stories.found(path), start="edited", editor=True)
    server.text = text.encode()
    return server
