"""A Redis server of one's own, for tests and timings: on a unix socket alone, in a folder of its own. Debian's package of the tools
has the server's program too, under the name redis-check-rdb. So no package is needed that would start a server of the system."""
import ctypes
import os
import shutil
import signal
import subprocess
import time

from resp import Client

SETTINGS = {
    "port": "0",
    "save": "",
    "appendonly": "no",
    "daemonize": "no",
    "loglevel": "notice",
    "enable-debug-command": "yes",
    "maxmemory": "0",
    "timeout": "0",
}


def program():
    """Returns the words that start a server."""
    found = shutil.which("redis-server")
    return [found] if found else ["redis-server"]


def _end_with_parent():
    ctypes.CDLL(None).prctl(1, int(signal.SIGKILL))


class Server:
    """A server with the module, with its files in `folder`. It is stopped at the end of a `with`. `before` is a command under which
    it runs. Settings of redis.conf have `_` for `-`."""

    def __init__(self, folder, module, words=(), before=(), **settings):
        self.folder, self.module, self.words, self.before = folder, module, list(words), list(before)
        self.settings = {**SETTINGS, **{name.replace("_", "-"): str(value) for name, value in settings.items()}}
        self.socket = f"{folder}/socket"
        self.process = None
        os.makedirs(folder, exist_ok=True)

    def start(self, wait=True):
        settings = {**self.settings, "unixsocket": self.socket, "dir": self.folder}
        with open(f"{self.folder}/redis.conf", "w", encoding="utf-8") as file:
            for name, value in settings.items():
                file.write(f'{name} "{value}"\n' if value == "" or " " not in value else f"{name} {value}\n")
            if self.module:
                file.write(f"loadmodule {self.module} {' '.join(map(str, self.words))}\n")
        if os.path.exists(self.socket):
            os.remove(self.socket)
        own = program()
        executable = None if os.path.isabs(own[0]) or self.before else "/usr/bin/redis-check-rdb"
        if self.before and not os.path.isabs(own[0]):
            link = f"{self.folder}/redis-server"
            if not os.path.exists(link):
                os.symlink("/usr/bin/redis-check-rdb", link)
            own = [link]
        with open(f"{self.folder}/log", "ab") as log:
            self.process = subprocess.Popen(
                [*self.before, *own, f"{self.folder}/redis.conf"],
                executable=executable,
                stdin=subprocess.DEVNULL,
                stdout=log,
                stderr=log,
                cwd=self.folder,
                start_new_session=True,
                preexec_fn=_end_with_parent,
            )
        if wait:
            self.wait()
        return self

    def wait(self, seconds=60):
        """Waits until the server takes commands."""
        end = time.monotonic() + seconds
        while time.monotonic() < end:
            try:
                with self.client() as client:
                    if client("PING") == "PONG":
                        return
            except OSError:
                if self.process.poll() is not None:
                    break
            time.sleep(0.01)
        raise RuntimeError(f"the server does not start\n{self.log()[-3000:]}")

    def client(self, version=2):
        return Client(self.socket, version)

    def kill(self):
        """Ends the server at once."""
        if self.process is not None:
            self.process.kill()
            self.process.wait()
            self.process = None

    def stop(self, seconds=60):
        """Stops the server. Returns its status, or None if it was not running."""
        if self.process is None:
            return None
        self.process.send_signal(signal.SIGTERM)
        try:
            status = self.process.wait(timeout=seconds)
        except subprocess.TimeoutExpired:
            self.kill()
            return "it did not stop"
        self.process = None
        return status

    def log(self):
        with open(f"{self.folder}/log", encoding="utf-8", errors="replace") as file:
            return file.read()

    def runs(self):
        """Returns whether the server still runs and takes commands."""
        if self.process is None or self.process.poll() is not None:
            return False
        with self.client() as client:
            return client("PING") == "PONG"

    def __enter__(self):
        return self.start()

    def __exit__(self, *_):
        self.stop()
