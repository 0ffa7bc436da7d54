"""A PostgreSQL server of one's own, for tests and timings: on a unix socket alone, in a folder of its own, as a user that is not
root. Its programs are copies of Debian's, which find their other files by their own place. So the extension is installed there,
and the system stays as it is."""
import contextlib
import ctypes
import os
import pwd
import shutil
import signal
import subprocess
import tempfile
import time

import psycopg2

HERE = os.path.dirname(os.path.abspath(__file__))
EXTENSION = os.path.dirname(HERE)
CONFIG = os.environ.get("PG_CONFIG", "/usr/lib/postgresql/15/bin/pg_config")
SETTINGS = {
    "listen_addresses": "''", "fsync": "off", "full_page_writes": "off", "autovacuum": "off", "jit": "off",
    "max_worker_processes": "16", "max_parallel_workers": "16", "log_min_messages": "warning",
    "max_wal_size": "'256MB'", "min_wal_size": "'64MB'",
    "timezone": "'UTC'", "lc_messages": "'C'", "shared_buffers": "'128MB'",
}


def asked(*words):
    """Returns what `pg_config` prints."""
    return subprocess.run([CONFIG, *words], capture_output=True, check=True, text=True).stdout.strip()


def owner():
    """Returns the user of the server: this one, or `postgres` or `nobody` if this is root, as which no server starts."""
    if os.geteuid() != 0:
        return pwd.getpwuid(os.geteuid())
    for name in ["postgres", "nobody"]:
        try:
            return pwd.getpwnam(name)
        except KeyError:
            pass
    raise SystemExit("a server does not start as root, and there is no user postgres or nobody")


def give(path):
    """Gives a folder with all files in it to the server's user."""
    user = owner()
    if os.geteuid() == 0:
        for folder, folders, files in os.walk(path):
            for name in [".", *folders, *files]:
                os.chown(os.path.join(folder, name), user.pw_uid, user.pw_gid, follow_symlinks=False)


def copy_programs(tree):
    """Copies the server's programs into a tree, and links its other files there."""
    programs, libraries, share = [asked(word) for word in ["--bindir", "--pkglibdir", "--sharedir"]]
    os.makedirs(tree + programs)
    for name in os.listdir(programs):
        shutil.copy(os.path.join(programs, name), tree + programs)
    for folder in [libraries, share, f"{share}/extension"]:
        os.makedirs(tree + folder, exist_ok=True)
        for name in os.listdir(folder):
            if os.path.join(folder, name) != f"{share}/extension" and "sketches_rattle" not in name:
                os.symlink(os.path.join(folder, name), os.path.join(tree + folder, name))


def install(tree, archive, work, **settings):
    """Builds the extension from a copy of its sources, with settings of `make`, and installs it in a tree."""
    sources = tempfile.mkdtemp(dir=work)
    os.mkdir(f"{sources}/src")
    for name in os.listdir(EXTENSION):
        if name == "Makefile" or name.endswith((".control", ".sql", ".sh")):
            shutil.copy(f"{EXTENSION}/{name}", sources)
    for name in os.listdir(f"{EXTENSION}/src"):
        if name.endswith((".c", ".h")):
            shutil.copy(f"{EXTENSION}/src/{name}", f"{sources}/src")
    words = {"PG_CONFIG": CONFIG, "INCLUDE": f"{os.path.dirname(EXTENSION)}/c/include", "ARCHIVE": archive, "DESTDIR": tree,
             **settings}
    made = subprocess.run(["make", "-s", "-j2", "-C", sources, *[f"{name}={value}" for name, value in words.items()], "install"],
                          capture_output=True, text=True)
    if made.returncode:
        raise RuntimeError(f"make: {made.stdout[-2000:]}\n{made.stderr[-4000:]}")


def processor_time(process):
    """Returns the processor time of a process, in seconds."""
    with open(f"/proc/{process}/stat", encoding="utf-8") as file:
        words = file.read().rsplit(")", 1)[1].split()
    return (int(words[11]) + int(words[12])) / os.sysconf("SC_CLK_TCK")


def memory(process, name):
    """Returns a field of a process's status in bytes, or 0 if it is gone."""
    try:
        with open(f"/proc/{process}/status", encoding="utf-8") as file:
            return next((int(line.split()[1]) * 1024 for line in file if line.startswith(name)), 0)
    except OSError:
        return 0


def _end_with_parent():
    ctypes.CDLL(None).prctl(1, int(signal.SIGQUIT))


class Server:
    """A server over the programs of a tree, with its files in `folder`. It is stopped at the end of a `with`. `before` is a command
    under which it runs."""

    def __init__(self, tree, folder, locale="C.UTF-8", encoding="UTF8", env=None, before=(), **settings):
        self.tree, self.folder, self.before = tree, folder, list(before)
        self.bin = tree + asked("--bindir")
        self.data = os.path.join(folder, "data")
        self.env = {"PATH": f"{self.bin}:/usr/bin:/bin", "LANG": "C.UTF-8", "HOME": folder}
        self.server_env = {**self.env, **(env or {})}
        self.process = None
        os.makedirs(folder)
        os.chmod(folder, 0o755)
        give(folder)
        self.run("initdb", "-D", self.data, "-U", "postgres", "-A", "trust", "--locale", locale, "-E", encoding, "--no-sync")
        with open(f"{self.data}/postgresql.conf", "a", encoding="utf-8") as file:
            for name, value in {**SETTINGS, "unix_socket_directories": f"'{folder}'", **settings}.items():
                file.write(f"{name} = {value}\n")

    def as_owner(self):
        """Returns the arguments of `subprocess` under which a command runs as the server's user."""
        user = owner()
        if os.geteuid() != 0:
            return {}
        return {"user": user.pw_uid, "group": user.pw_gid, "extra_groups": []}

    def run(self, program, *words, check=True, seconds=300, env=None, **more):
        """Runs one of the server's programs, as the server's user, and returns what came of it."""
        ran = subprocess.run([os.path.join(self.bin, program), *words], capture_output=True, timeout=seconds, cwd=self.folder,
                             env={**self.env, "PGHOST": self.folder, "PGUSER": "postgres", **(env or {})},
                             **self.as_owner(), **more)
        if check and ran.returncode:
            raise RuntimeError(f"{program}: status {ran.returncode}\n{ran.stdout[-2000:]!r}\n{ran.stderr[-4000:]!r}")
        return ran

    def start(self):
        with open(f"{self.folder}/log", "ab") as log:
            self.process = subprocess.Popen(
                [*self.before, f"{self.bin}/postgres", "-D", self.data], stdin=subprocess.DEVNULL, stdout=log, stderr=log,
                cwd=self.folder, env=self.server_env, start_new_session=True, preexec_fn=_end_with_parent, **self.as_owner())
        self.wait()

    def wait(self, seconds=60):
        """Waits until the server takes connections."""
        for _ in range(seconds * 20):
            try:
                self.connect().close()
                return
            except psycopg2.OperationalError:
                if self.process.poll() is not None:
                    break
                time.sleep(0.05)
        raise RuntimeError(f"the server does not start\n{self.log()[-4000:]}")

    def stop(self):
        """Stops the server: first with an end to its sessions, and at once if this takes long."""
        for how in [signal.SIGINT, signal.SIGQUIT, signal.SIGKILL]:
            if self.process is None or self.process.poll() is not None:
                break
            self.process.send_signal(how)
            try:
                self.process.wait(timeout=20)
            except subprocess.TimeoutExpired:
                pass
        self.process = None

    def log(self):
        with open(f"{self.folder}/log", encoding="utf-8", errors="replace") as file:
            return file.read()

    def connect(self, database="postgres", encoding="UTF8", user="postgres", **settings):
        """Opens a session, with settings as by SET."""
        session = psycopg2.connect(host=self.folder, user=user, dbname=database)
        session.autocommit = True
        session.set_client_encoding(encoding)
        for name, value in settings.items():
            with session.cursor() as cursor:
                cursor.execute("SELECT set_config(%s, %s, false)", (name.replace("__", "."), str(value)))
        return session

    def session(self, database="postgres", **settings):
        """Opens a session for a `with`, at whose end it is closed. Each statement is a transaction of its own."""
        return contextlib.closing(self.connect(database, **settings))

    def __enter__(self):
        self.start()
        return self

    def __exit__(self, *_):
        self.stop()
        shutil.rmtree(self.data, ignore_errors=True)
