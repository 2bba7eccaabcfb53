"""A PostgreSQL server of one's own: in a temporary folder, reached by a socket in that folder alone, and gone with it afterwards."""
import contextlib
import os
import pathlib
import pwd
import shutil
import signal
import subprocess
import sys
import tempfile
import time

PROGRAMS = ("initdb", "postgres", "pg_isready", "psql")
SERVER_USERS = ("postgres", "nobody")
START_SECONDS = 60
STOP_SECONDS = 30
# Nothing of the server is kept, so nothing needs to reach the disk. Queries are small and many: compiling one, or sharing it out, takes longer than running it.
SETTINGS = (
    "listen_addresses=", "fsync=off", "synchronous_commit=off", "full_page_writes=off", "autovacuum=off", "jit=off",
    "max_parallel_workers_per_gather=0", "max_connections=5", "shared_buffers=32MB")


class ServerError(Exception):
    """There is no server, or it does not answer."""


def program_folder(root=pathlib.Path("/usr/lib/postgresql")):
    """The newest folder that has all the programs, or None."""
    folders = [folder for folder in root.glob("*/bin") if all((folder / program).exists() for program in PROGRAMS)]
    return max(folders, key=lambda folder: [int(number) for number in folder.parent.name.split(".")], default=None)


def found_or_installed():
    """The folder of the programs; where there is none, Debian's package is installed first."""
    folder = program_folder()
    if folder is None:
        print("postgres: no server programs; installing Debian's package", file=sys.stderr, flush=True)
        quietly = os.environ | {"DEBIAN_FRONTEND": "noninteractive"}
        for command in (["update"], ["install", "-y", "postgresql"]):
            done = subprocess.run(["apt-get", "-qq"] + command, env=quietly, stdout=subprocess.DEVNULL)
            if done.returncode != 0:
                raise ServerError(f"apt-get {' '.join(command)} ended with {done.returncode}")
        folder = program_folder()
    if folder is None:
        raise ServerError("no folder has all of " + ", ".join(PROGRAMS))
    return folder


def server_account():
    """Whom the server runs as: it refuses root, so for root another user that is there; for anybody else, they themselves."""
    if os.geteuid() != 0:
        return None
    known = {entry.pw_name: entry for entry in pwd.getpwall()}
    for name in SERVER_USERS:
        if name in known:
            return known[name]
    raise ServerError("the server refuses root, and there is none of the users " + ", ".join(SERVER_USERS))


def without_defaults():
    """The environment without the variables that PostgreSQL's programs would take settings from."""
    return {name: value for name, value in os.environ.items() if not name.startswith("PG")}


class Server:
    """`programs`: the folder of the programs. `folder`: where everything of the server is. `account`: whom it runs as, or None for the caller."""

    def __init__(self, programs, folder, account):
        self.programs, self.folder, self.account = programs, folder, account
        self.log = folder / "log"
        self.process = None

    def start_program(self, program, *arguments):
        """Starts a program as the server's user, in the server's folder; what it says is in the log."""
        identity = {}
        if self.account is not None:
            identity = {"user": self.account.pw_uid, "group": self.account.pw_gid, "extra_groups": []}
        with self.log.open("ab") as log:
            return subprocess.Popen(
                [str(self.programs / program), *arguments], cwd=self.folder, env=without_defaults(), stdin=subprocess.DEVNULL, stdout=log, stderr=log,
                start_new_session=True, **identity)

    def fail(self, what):
        raise ServerError(f"{what}\n{self.log.read_text(errors='replace')}")

    def make_cluster(self):
        options = ["--no-locale", "--encoding=UTF8", "--no-sync", "--auth=trust", "--username=postgres"]
        if self.start_program("initdb", "-D", "data", *options).wait() != 0:
            self.fail("initdb failed")

    def start(self):
        """Starts the server, and waits until it answers."""
        settings = [word for setting in SETTINGS for word in ("-c", setting)]
        self.process = self.start_program("postgres", "-D", "data", "-k", str(self.folder), *settings)
        latest = time.monotonic() + START_SECONDS
        is_ready = [str(self.programs / "pg_isready"), "-q", "-h", str(self.folder)]
        while subprocess.run(is_ready, env=without_defaults()).returncode != 0:
            if self.process.poll() is not None or time.monotonic() > latest:
                self.fail("the server does not start")
            time.sleep(.05)

    def stop(self):
        """Stops the server at once (SIGQUIT means that to it); nothing of it is kept."""
        if self.process is None or self.process.poll() is not None:
            return
        self.process.send_signal(signal.SIGQUIT)
        try:
            self.process.wait(STOP_SECONDS)
        except subprocess.TimeoutExpired:
            self.process.kill()
            self.process.wait()

    def ask(self, script):
        """What psql prints for a script, without headings, NULL as U; an error if any statement fails."""
        command = [str(self.programs / "psql"), "-X", "-q", "-A", "-t", "-v", "ON_ERROR_STOP=1", "-P", "null=U"]
        command += ["-h", str(self.folder), "-U", "postgres", "-d", "postgres", "-f", "-"]
        done = subprocess.run(command, env=without_defaults(), input=script, capture_output=True, text=True)
        if done.returncode != 0 or done.stderr:
            raise ServerError(f"psql ended with {done.returncode}\n{done.stderr}")
        return done.stdout


@contextlib.contextmanager
def private_server():
    """A server that runs while the block does, however that ends."""
    programs = found_or_installed()
    with contextlib.ExitStack() as afterwards:
        folder = pathlib.Path(tempfile.mkdtemp(prefix="postgres."))
        afterwards.callback(shutil.rmtree, folder)
        account = server_account()
        if account is not None:
            os.chown(folder, account.pw_uid, account.pw_gid)
        server = Server(programs, folder, account)
        afterwards.callback(server.stop)
        server.make_cluster()
        server.start()
        yield server
