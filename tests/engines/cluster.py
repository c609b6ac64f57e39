"""A PostgreSQL cluster of its own, with the extension, for the trials.

The server finds its files relative to its program, so its folders are copied and the extension is installed into the copy: nothing else is changed, and no
older copy of the extension can be tried by mistake. It listens on a socket alone, and is run by the user `postgres` where the trial runs as root.
"""
import os
import pwd
import re
import shutil
import subprocess
import tempfile
import time

OPTIONS = {
    "listen_addresses": "''",
    "fsync": "off",
    "max_worker_processes": "8",
    "max_parallel_workers": "8",
    "log_min_messages": "panic",
    "jit": "off",
}


class Refused(Exception):
    """An error of the server: its SQLSTATE, message and detail."""

    def __init__(self, words):
        super().__init__(words)
        found = re.search(r"(?:ERROR|FATAL):\s+(\w{5}): (.*)", words)
        detail = re.search(r"^DETAIL:\s+(.*)", words, re.M)
        self.state, self.message = found.groups() if found else ("", words)
        self.detail = detail[1] if detail else ""


def config(pg_config, name):
    return subprocess.check_output([pg_config, "--" + name], text=True).strip()


def unprivileged():
    """How a process is run without root's rights, which the server refuses."""
    if os.getuid() != 0:
        return {}
    user = pwd.getpwnam("postgres")
    return {"user": user.pw_uid, "group": user.pw_gid, "extra_groups": []}


def reaches(folder):
    return subprocess.call(["test", "-x", folder], **unprivileged()) == 0


class Cluster:
    """Used by `with`: made, started, and ended by its own process id."""

    def __init__(self, folder, make, pg_config):
        self.make, self.pg_config = make, pg_config
        self.folder = os.path.abspath(folder)
        shutil.rmtree(self.folder, ignore_errors=True)
        os.makedirs(self.folder)
        self.elsewhere = not reaches(self.folder)
        if self.elsewhere:
            self.folder = tempfile.mkdtemp(prefix="engines-")
            os.chmod(self.folder, 0o755)
        self.data = os.path.join(self.folder, "data")
        # A socket's path has at most 107 bytes.
        self.sockets = tempfile.mkdtemp(prefix="pg-")
        self.server = None

    def path(self, name):
        """Where a folder of the server stands in the copy."""
        return os.path.join(self.folder, "copy") + config(self.pg_config, name)

    def program(self, name):
        return os.path.join(self.path("bindir"), name)

    def install(self):
        for name in ("bindir", "pkglibdir", "sharedir"):
            shutil.copytree(config(self.pg_config, name), self.path(name), symlinks=False, dirs_exist_ok=True)
        subprocess.run(self.make + ["install", "DESTDIR=" + os.path.join(self.folder, "copy")], check=True, stdout=subprocess.DEVNULL)

    def start(self):
        for folder in (self.data, self.sockets):
            os.makedirs(folder, exist_ok=True)
            if unprivileged():
                os.chown(folder, unprivileged()["user"], unprivileged()["group"])
        subprocess.run([self.program("initdb"), "-D", self.data, "-U", "club", "-A", "trust", "-E", "UTF8", "--no-locale", "--no-sync"],
                       check=True, stdout=subprocess.DEVNULL, cwd="/", **unprivileged())
        options = [word for name, value in OPTIONS.items() for word in ("-c", "%s=%s" % (name, value.strip("'")))]
        self.log = open(os.path.join(self.folder, "log"), "wb")
        self.server = subprocess.Popen([self.program("postgres"), "-D", self.data, "-k", self.sockets] + options,
                                       stdout=self.log, stderr=self.log, cwd="/", **unprivileged())
        for _ in range(300):
            if subprocess.call([self.program("pg_isready"), "-q", "-h", self.sockets], cwd="/") == 0:
                return
            if self.server.poll() is not None:
                break
            time.sleep(0.1)
        with open(self.log.name) as log:
            raise SystemExit("the server does not start:\n" + log.read())

    def __enter__(self):
        try:
            self.install()
            self.start()
        except BaseException:
            self.__exit__()
            raise
        return self

    def __exit__(self, *_):
        if self.server and self.server.poll() is None:
            self.server.send_signal(2)  # SIGINT: connections are ended, and the data are written
            self.server.wait()
            self.log.close()
        shutil.rmtree(self.sockets, ignore_errors=True)
        if self.elsewhere:
            shutil.rmtree(self.folder, ignore_errors=True)

    def alive(self):
        return self.server.poll() is None

    def psql(self, text, database="postgres"):
        """What psql prints for some SQL; Refused is raised where the server refuses it."""
        run = subprocess.run([self.program("psql"), "-XAtq", "-h", self.sockets, "-U", "club", "-d", database, "-v", "ON_ERROR_STOP=1",
                              "-v", "VERBOSITY=verbose"], input=text, capture_output=True, text=True, cwd="/")
        if run.returncode or "ERROR:" in run.stderr:
            raise Refused(run.stderr)
        return run.stdout.rstrip("\n")
