"""Farms of two nodes that stand on this machine, of which one can be stopped in the middle: a Slurm, and logins."""
import os
import signal
import socket
import subprocess
import time

CONF = """ClusterName=trial
SlurmctldHost=localhost(127.0.0.1)
SlurmUser=root
SlurmdUser=root
AuthType=auth/munge
AuthInfo=socket={room}/munge/socket,cred_expire=5
SlurmctldPort={0}
SlurmctldPidFile={room}/ctld.pid
SlurmdPidFile={room}/slurmd-%n.pid
StateSaveLocation={room}/state
SlurmdSpoolDir={room}/spool/%n
SlurmctldLogFile={room}/log/ctld
SlurmdLogFile={room}/log/d-%n
ProctrackType=proctrack/linuxproc
TaskPlugin=task/none
SelectType=select/cons_tres
SelectTypeParameters=CR_Core
SchedulerType=sched/builtin
SlurmdTimeout=5
ReturnToService=2
MpiDefault=none
NodeName=n1 NodeHostname=localhost NodeAddr=127.0.0.1 Port={1} CPUs=2 RealMemory=1000 State=UNKNOWN
NodeName=n2 NodeHostname=localhost NodeAddr=127.0.0.1 Port={2} CPUs=2 RealMemory=1000 State=UNKNOWN
PartitionName=all Nodes=ALL Default=YES MaxTime=INFINITE State=UP
"""
SSHD = """Port {port}
ListenAddress 127.0.0.1
HostKey {room}/host
AuthorizedKeysFile {room}/key.pub
PidFile {room}/sshd{port}.pid
StrictModes no
UsePAM no
"""


def ports(many):
    """Ports that are free now."""
    sockets = [socket.socket() for _ in range(many)]
    for it in sockets:
        it.bind(("127.0.0.1", 0))
    found = [it.getsockname()[1] for it in sockets]
    for it in sockets:
        it.close()
    return found


def write(path, text, mode=0o644):
    with open(path, "w", encoding="utf-8") as file:
        file.write(text)
    os.chmod(path, mode)
    return path


def said(*words):
    return subprocess.run(words, capture_output=True, text=True, check=False).stdout


def waited(holds, text, seconds=600):
    until = time.time() + seconds
    while not holds():
        if time.time() > until:
            raise RuntimeError(text)
        time.sleep(0.1)


class Nodes:
    """Two nodes, each a daemon of its own; what runs on node n2 waits there until that is stopped."""

    def __init__(self, room):
        self.room, self.started, self.nodes = room, [], []

    def start(self, *words):
        with open(f"{self.room}/log/started", "ab") as log:
            self.started.append(subprocess.Popen(words, stdin=subprocess.DEVNULL, stdout=log, stderr=log,
                                                 start_new_session=True))
        return self.started[-1]

    def slow(self, program):
        """A program that takes a while, and on node n2 until that goes away."""
        os.makedirs(f"{self.room}/slow")
        waits = f": > {self.room}/is-on; while [ ! -e {self.room}/is-down ]; do sleep 0.1; done"
        return write(f"{self.room}/slow/{os.path.basename(program)}", "#!/bin/sh\nsleep 0.1\n"
                     f"if {self.ON_NODE.format(self)}; then {waits}; fi\nexec '{program}' \"$@\"\n", 0o755)

    def break_down(self):
        """A node goes away in the middle: its daemon, and what it has started of jobs. These are at a seed by then: a
        shell that begins to work may hold what others of this machine wait for."""
        waited(lambda: os.path.exists(f"{self.room}/is-on"), "node n2 has no job")
        self.nodes[1].kill()
        for it in self.jobs():
            try:
                os.kill(it, signal.SIGKILL)
            except ProcessLookupError:
                pass
        write(f"{self.room}/is-down", "")

    def begin_anew(self):
        """Nothing runs on node n2 any more: it goes away once something does again."""
        if os.path.exists(f"{self.room}/is-on"):
            os.unlink(f"{self.room}/is-on")

    def jobs(self):
        """The processes of jobs of our node n2, each behind the one that looks after it, where there is one."""
        found = []
        for number in filter(str.isdigit, os.listdir("/proc")):
            try:
                with open(f"/proc/{number}/environ", "rb") as file:
                    words = file.read().split(b"\0")
                with open(f"/proc/{number}/stat", encoding="ascii", errors="replace") as file:
                    parent = int(file.read().rpartition(")")[2].split()[1])
                with open(f"/proc/{parent}/comm", encoding="ascii", errors="replace") as file:
                    is_step = file.read().startswith(self.STEP)
            except (OSError, ValueError):
                continue
            if self.is_ours(words):
                found += [parent] * is_step + [int(number)]
        return found

    def end(self):
        # what still runs on node n2 goes on, and ends
        write(f"{self.room}/is-down", "")
        self.shut_down()
        for it in reversed(self.started):
            it.terminate()
        for it in self.started:
            try:
                it.wait(60)
            except subprocess.TimeoutExpired:
                it.kill()

    def shut_down(self):
        """What comes before the daemons are ended."""


class Slurm(Nodes):
    """A controller and two nodes."""
    ON_NODE, STEP = '[ "$SLURMD_NODENAME" = n2 ]', "slurmstepd"

    def __init__(self, room):
        super().__init__(room)
        for name in ("state", "log", "spool/n1", "spool/n2", "munge"):
            os.makedirs(f"{room}/{name}")
        with open(f"{room}/munge/key", "wb") as file:
            file.write(os.urandom(128))
        os.chmod(f"{room}/munge/key", 0o400)
        os.environ["SLURM_CONF"] = write(f"{room}/slurm.conf", CONF.format(*ports(3), room=room))
        # by force also below a folder through which others may not pass
        self.start("munged", "--foreground", "--force", f"--key-file={room}/munge/key",
                   f"--socket={room}/munge/socket", f"--pid-file={room}/munge/pid", f"--log-file={room}/munge/log",
                   f"--seed-file={room}/munge/seed")
        waited(lambda: os.path.exists(f"{room}/munge/socket"), "munged does not come up")
        self.start("slurmctld", "-D", "-f", f"{room}/slurm.conf")
        self.nodes = [self.start("slurmd", "-D", "-N", it, "-f", f"{room}/slurm.conf") for it in ("n1", "n2")]
        waited(lambda: said("sinfo", "-h", "-t", "idle", "-o", "%D").strip() == "2", "the nodes do not come up")

    def is_ours(self, words):
        return all(it in words for it in [b"SLURMD_NODENAME=n2", f"SLURM_CONF={self.room}/slurm.conf".encode()])

    def words(self):
        return ["--engine", "slurm"]

    def shut_down(self):
        said("scontrol", "shutdown")
        time.sleep(1)


class Logins(Nodes):
    """Two daemons for logins on 127.0.0.1, for GNU parallel."""
    ON_NODE, STEP = 'case "$SSH_CONNECTION" in *" {0.ports[1]}") true ;; *) false ;; esac', "sshd"

    def __init__(self, room):
        super().__init__(room)
        os.makedirs(f"{room}/log")
        os.makedirs("/run/sshd", exist_ok=True)
        self.ports = ports(2)
        for name in ("host", "key"):
            subprocess.run(["ssh-keygen", "-q", "-t", "ed25519", "-N", "", "-f", f"{room}/{name}"], check=True)
        files = [write(f"{room}/sshd{it}", SSHD.format(port=it, room=room)) for it in self.ports]
        self.nodes = [self.start("/usr/sbin/sshd", "-D", "-f", it) for it in files]
        logins = [f"ssh -p {it} -i {room}/key -o BatchMode=yes -o UserKnownHostsFile={room}/known "
                  "-o StrictHostKeyChecking=no -o LogLevel=ERROR 127.0.0.1" for it in self.ports]
        for it in logins:
            waited(lambda words=it.split(): subprocess.run([*words, "true"], stderr=subprocess.DEVNULL,
                                                           check=False).returncode == 0, "no login on 127.0.0.1")
        write(f"{room}/machines", "".join(f"1/{it}\n" for it in logins))

    def is_ours(self, words):
        return any(it.startswith(b"SSH_CONNECTION=") and it.endswith(f" {self.ports[1]}".encode()) for it in words)

    def words(self):
        return ["--engine", "parallel", "--engine-words", f"--sshloginfile {self.room}/machines"]
