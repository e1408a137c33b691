"""A real Slurm of one node on 127.0.0.1, with slurmctld, slurmd and munged (Debian: slurm-wlm, munge), which needs root."""
import contextlib
import os
import pathlib
import shutil
import socket
import subprocess
import tempfile
import time

PROGRAMS = "munged", "slurmctld", "slurmd", "sinfo", "sbatch"
SYSTEM_PATH = "/usr/bin:/bin:/usr/sbin:/sbin"
SECONDS_TO_START = 300
CONFIGURATION = """ClusterName=one
SlurmctldHost={host}(127.0.0.1)
SlurmctldPort={controller_port}
SlurmdPort={node_port}
AuthType=auth/munge
AuthInfo=socket={folder}/munge.sock
SlurmUser=root
StateSaveLocation={folder}/state
SlurmdSpoolDir={folder}/spool
SlurmctldPidFile={folder}/slurmctld.pid
SlurmdPidFile={folder}/slurmd.pid
ProctrackType=proctrack/linuxproc
TaskPlugin=task/none
JobAcctGatherType=jobacct_gather/none
AccountingStorageType=accounting_storage/none
SelectType=select/cons_tres
SelectTypeParameters=CR_CPU
ReturnToService=2
MailProg=/bin/true
NodeName={host} NodeAddr=127.0.0.1 CPUs=2 RealMemory=1024 State=UNKNOWN
PartitionName=all Nodes=ALL Default=YES MaxTime=INFINITE State=UP
"""


def lacking():
    """Why there can be no such cluster here, or nothing."""
    missing = [name for name in PROGRAMS if shutil.which(name, path=SYSTEM_PATH) is None]
    if missing:
        return f"{', '.join(missing)} not installed"
    return "" if os.geteuid() == 0 else "this isn't root"


def free_ports(count):
    taken = [socket.socket() for _ in range(count)]
    for it in taken:
        it.bind(("127.0.0.1", 0))
    ports = [it.getsockname()[1] for it in taken]
    for it in taken:
        it.close()
    return ports


def written_configuration(folder):
    for name in ("state", "spool", "munge"):
        (folder / name).mkdir(mode=0o700)
    (folder / "munge.key").write_bytes(os.urandom(128))
    (folder / "munge.key").chmod(0o600)
    controller_port, node_port = free_ports(2)
    host = socket.gethostname().split(".")[0]
    path = folder / "slurm.conf"
    path.write_text(CONFIGURATION.format(host=host, folder=folder, controller_port=controller_port, node_port=node_port))
    return path


def commands(folder, configuration):
    """The daemons, lowest first, as they run in the foreground."""
    munge = folder / "munge"
    yield ["munged", "--foreground", "--force", f"--key-file={folder}/munge.key", f"--socket={folder}/munge.sock", f"--pid-file={munge}/pid",
           f"--log-file={munge}/log", f"--seed-file={munge}/seed"]  # fmt: skip
    yield ["slurmctld", "-D", "-f", configuration]
    yield ["slurmd", "-D", "-f", configuration]


def wait_until_idle(environment, daemons, log):
    end = time.monotonic() + SECONDS_TO_START
    while time.monotonic() < end and all(it.poll() is None for it in daemons):
        told = subprocess.run(["sinfo", "-h", "-t", "idle"], env=environment, stdout=subprocess.PIPE, stderr=subprocess.DEVNULL, timeout=SECONDS_TO_START)
        if told.stdout.strip():
            return
        time.sleep(0.2)
    raise RuntimeError(f"Slurm doesn't start:\n{log.read_text()[-3_000:]}")


@contextlib.contextmanager
def one_node():
    """What the environment of Slurm's commands has, while the daemons run."""
    # The name of a socket mustn't be long.
    folder = pathlib.Path(tempfile.mkdtemp(prefix="slurm-"))
    folder.chmod(0o755)
    configuration, log, daemons = written_configuration(folder), folder / "log", []
    own = {"SLURM_CONF": str(configuration)}
    environment = {**os.environ, **own, "PATH": SYSTEM_PATH}
    try:
        with open(log, "wb") as out:
            for command in commands(folder, configuration):
                daemons.append(subprocess.Popen(command, env=environment, stdin=subprocess.DEVNULL, stdout=out, stderr=out))
                if command[0] == "munged":
                    wait_for(folder / "munge.sock")
        wait_until_idle(environment, daemons, log)
        yield own
    finally:
        for daemon in reversed(daemons):
            daemon.terminate()
            daemon.wait(timeout=SECONDS_TO_START)
        shutil.rmtree(folder)


def wait_for(path):
    end = time.monotonic() + SECONDS_TO_START
    while not path.exists():
        if time.monotonic() > end:
            raise RuntimeError(f"{path} doesn't appear")
        time.sleep(0.05)
