"""What the scripts share that run the program: that it is built, the files of an example, and a provider that runs."""
import errno
import os
import re
import shutil
import signal
import socket
import subprocess
import sys
import time

ROOT = os.path.dirname(os.path.dirname(os.path.realpath(__file__)))
PROGRAM = os.path.join(ROOT, "out", "samld")
# Seconds within which a program that was started has to listen.
PATIENCE = 30


def built(given=None):
    """The path of the program: of the given one, or of that which bin/samld builds first. Where there is none the script ends."""
    if given is not None:
        found = shutil.which(os.path.abspath(given)) or shutil.which(given)
        if found is None:
            sys.exit(f"there is no program {given}")
        return os.path.abspath(found)
    status = subprocess.run([os.path.join(ROOT, "bin", "samld")], stdin=subprocess.DEVNULL, stdout=subprocess.DEVNULL).returncode
    if status != 2:
        sys.exit(f"the program was not built: bin/samld with no words ended with status {status}, and not with 2")
    return PROGRAM


def example(folder, role="sp"):
    """Puts the files of an example into a folder, but not the journal that a provider left there."""
    source = os.path.join(ROOT, "examples", role)
    for name in os.listdir(source):
        if os.path.isfile(os.path.join(source, name)) and not name.startswith("journal."):
            shutil.copy(os.path.join(source, name), folder)


def must_be_free(host, port):
    """Ends the script where somebody listens at this address: what is asked there would be answered by another program."""
    with socket.socket() as link:
        link.setsockopt(socket.SOL_SOCKET, socket.SO_REUSEADDR, 1)
        try:
            link.bind((host, port))
        except OSError as fault:
            if fault.errno != errno.EADDRINUSE:
                raise
            sys.exit(f"somebody listens at {host}:{port}")


def touch(address):
    """Opens a connection and closes it."""
    socket.create_connection(address, timeout=1).close()


class Running:
    """A program that listens at a port of this machine, in a folder, for as long as the block lasts.

    `reach` is called with the address again and again until it doesn't fail, with a pause between; `end` is the signal that the
    program is stopped with. What else is given goes to Popen."""

    def __init__(self, words, folder, port, host="127.0.0.1", reach=touch, pause=0.005, end=signal.SIGKILL, **given):
        self.words, self.folder, self.address, self.given = words, folder, (host, port), given
        self.reach, self.pause, self.end = reach, pause, end

    def __enter__(self):
        self.start()
        return self

    def __exit__(self, *_):
        self.stop()

    def start(self):
        """Starts the program, which is the only one at its port, and waits until it listens: `opened` is how many seconds that took."""
        must_be_free(*self.address)
        begun = time.perf_counter()
        self.process = subprocess.Popen(self.words, cwd=self.folder, **self.given)
        try:
            self.wait_until_it_listens()
            self.opened = time.perf_counter() - begun
        except BaseException:
            self.stop()
            raise

    def wait_until_it_listens(self):
        """Ends the script where the program ended, or doesn't listen in time."""
        until = time.monotonic() + PATIENCE
        while self.process.poll() is None and time.monotonic() < until:
            try:
                return self.reach(self.address)
            except OSError:
                time.sleep(self.pause)
        status = self.process.poll()
        said = f"did not listen within {PATIENCE} seconds" if status is None else f"ended with status {status} and did not listen"
        sys.exit(f"{os.path.basename(self.words[0])} {said} at {self.address[0]}:{self.address[1]}")

    def stop(self):
        self.process.send_signal(self.end)
        self.process.wait()

    def memory(self):
        """The memory that the process has, in KiB."""
        with open(f"/proc/{self.process.pid}/status", encoding="ascii") as file:
            return int(re.search(r"VmRSS:\s+(\d+)", file.read()).group(1))
