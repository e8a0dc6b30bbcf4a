"""A gsd that listens, for as long as a with block."""
import re
import resource
import subprocess


class Server:
    """Starts PROGRAM --listen on this port, or on a free one, with these options more, and so many bytes of addresses at most where they are
    said, as a process with what more is said; the block's end ends it."""

    def __init__(self, program, *options, port=0, addresses=None, **more):
        self.words = [program, "--listen", f"127.0.0.1:{port}", *options]
        self.more = more
        if addresses:
            self.more["preexec_fn"] = lambda: resource.setrlimit(resource.RLIMIT_AS, (addresses, addresses))

    def __enter__(self):
        self.process = subprocess.Popen(self.words, stdin=subprocess.DEVNULL, stdout=subprocess.PIPE, **self.more)
        line = self.process.stdout.readline().decode()
        found = re.fullmatch(r"listening 127\.0\.0\.1:([1-9][0-9]*)\n", line)
        if not found:
            self.__exit__()
            raise SystemExit(f"the first line is {line!r}")
        self.port = int(found[1])
        self.url = f"http://127.0.0.1:{self.port}"
        return self

    def __exit__(self, *_):
        self.process.terminate()
        self.process.wait(timeout=20)
        self.process.stdout.close()

    def is_running(self):
        return self.process.poll() is None

    def resident_bytes(self):
        with open(f"/proc/{self.process.pid}/status") as lines:
            return next(int(line.split()[1]) * 1024 for line in lines if line.startswith("VmRSS:"))

    def peak_bytes(self):
        """The most that it was resident so far."""
        with open(f"/proc/{self.process.pid}/status") as lines:
            return next(int(line.split()[1]) * 1024 for line in lines if line.startswith("VmHWM:"))
