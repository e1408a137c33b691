"""A real Dask cluster on 127.0.0.1: a scheduler and workers, each a process of its own (Debian: python3-distributed)."""
import contextlib
import json
import subprocess
import time

SECONDS_TO_START = 300


def is_there(python):
    return subprocess.run([python, "-c", "import distributed"], stdin=subprocess.DEVNULL, stderr=subprocess.DEVNULL).returncode == 0


class Cluster:
    """The scheduler's address, the file that names it, and the workers."""

    def __init__(self, python, folder, environment):
        self.python, self.folder, self.environment = python, folder, environment
        self.file, self.log = folder / "scheduler.json", folder / "dask.log"
        self.workers = []
        self.scheduler = self.start("dask_scheduler", "--host", "127.0.0.1", "--port", "0", "--scheduler-file", self.file)

    def start(self, program, *words):
        with open(self.log, "ab") as out:
            command = [self.python, "-m", f"distributed.cli.{program}", *words, "--no-dashboard"]
            return subprocess.Popen(command, cwd=self.folder, env=self.environment, stdin=subprocess.DEVNULL, stdout=out, stderr=out)

    def add_worker(self):
        """A worker of one thread, without a process that would start it again."""
        where = self.folder / f"worker{len(self.workers)}"
        worker = self.start("dask_worker", self.address, "--nthreads", "1", "--no-nanny", "--local-directory", where)
        self.workers.append(worker)

    def wait(self):
        """Until the scheduler has written its address."""
        end = time.monotonic() + SECONDS_TO_START
        while not (self.file.exists() and self.file.read_text().strip().endswith("}")):
            if time.monotonic() > end or self.scheduler.poll() is not None:
                raise RuntimeError(f"the scheduler doesn't start:\n{self.log.read_text()[-3_000:]}")
            time.sleep(0.05)
        self.address = json.loads(self.file.read_text())["address"]

    def stop(self):
        for process in (*self.workers, self.scheduler):
            process.terminate()
        for process in (*self.workers, self.scheduler):
            try:
                process.wait(timeout=10)
            except subprocess.TimeoutExpired:
                process.kill()
                process.wait()


@contextlib.contextmanager
def cluster(python, folder, environment, workers=2):
    folder.mkdir()
    found = Cluster(python, folder, environment)
    try:
        found.wait()
        for _ in range(workers):
            found.add_worker()
        yield found
    finally:
        found.stop()
