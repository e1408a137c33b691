"""Runs of the program on a file and a certificate that arrive in pieces, each through a FIFO. Needs Linux."""
import errno
import fcntl
import os
import pathlib
import re
import struct
import subprocess
import termios
import threading
import time

MOST_PIECES = 5_000


def cut(rng, text):
    """The text in pieces of random sizes: of a few bytes, about a line, or more than one read takes."""
    most = rng.choice([size for size in (3, 81, 1_000, 100_000) if size * MOST_PIECES > len(text)])
    cuts, at = [], 0
    while at < len(text):
        size = rng.randint(1, most)
        cuts.append(text[at : at + size])
        at += size
    return cuts


class Writer(threading.Thread):
    """Writes pieces to a FIFO until the process that reads it has taken them all, or has ended.

    Where `measured` is said, `peak` is then the most memory that the process has held so far, in kilobytes, its code among
    it; None where it has ended.
    """

    def __init__(self, process, path, pieces, measured):
        super().__init__(daemon=True)
        self.process, self.path, self.pieces, self.measured, self.peak = process, path, pieces, measured, None

    def opened(self):
        """The FIFO once the process reads it, or None."""
        while self.process.poll() is None:
            try:
                fifo = os.open(self.path, os.O_WRONLY | os.O_NONBLOCK)
            except OSError as fault:
                if fault.errno != errno.ENXIO:
                    raise
                time.sleep(0.001)
                continue
            os.set_blocking(fifo, True)
            return fifo
        return None

    def wait_until_taken(self, fifo):
        """Waits until the process has taken all bytes, and a little, for what it does with the last of them."""
        while struct.unpack("i", fcntl.ioctl(fifo, termios.FIONREAD, b"\0" * 4))[0] and self.process.poll() is None:
            time.sleep(0.001)
        time.sleep(0.2)

    def memory(self):
        status = pathlib.Path(f"/proc/{self.process.pid}/status").read_text()
        peak = re.search(r"VmHWM:\s+(\d+) kB", status)
        return int(peak.group(1)) if peak else None

    def run(self):
        fifo = self.opened()
        if fifo is None:
            return
        try:
            for piece in self.pieces:
                os.write(fifo, piece)
            if self.measured:
                self.wait_until_taken(fifo)
                self.peak = self.memory()
        except (BrokenPipeError, FileNotFoundError):
            pass
        finally:
            os.close(fifo)


def run(command, folder, inputs, seconds, measured=False):
    """What the command gives: its status, standard output and standard error; and, where it is measured, the peak memory once
    the last input had come.

    The inputs are pieces by the name of the FIFO in the folder that they come through.
    """
    for name in inputs:
        os.mkfifo(folder / name)
    process = subprocess.Popen(command, cwd=folder, stdout=subprocess.PIPE, stderr=subprocess.PIPE)
    last = list(inputs)[-1]
    writers = [Writer(process, folder / name, pieces, measured and name == last) for name, pieces in inputs.items()]
    for writer in writers:
        writer.start()
    try:
        text, error = process.communicate(timeout=seconds)
    except subprocess.TimeoutExpired:
        process.kill()
        text, error = process.communicate()
        error += b"no end"
    for writer in writers:
        writer.join()
    for name in inputs:
        (folder / name).unlink()
    return (process.returncode, text, error), writers[-1].peak
