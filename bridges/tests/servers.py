"""Real servers for the tests of the bridges: started on this machine, ended and begun again, with and without TLS."""

import glob
import os
import shutil
import signal
import socket
import subprocess
import time
from pathlib import Path
from urllib.parse import quote

from support import PASSWORD, make_certificates, until

USER = "acdm"
BINARIES = "/usr/sbin:/usr/bin:/usr/lib/rabbitmq/bin"


def free_port() -> int:
    """A port at which nobody listens."""
    with socket.create_server(("127.0.0.1", 0)) as listener:
        return listener.getsockname()[1]


def listens(port: int) -> bool:
    """Whether somebody listens at a port."""
    try:
        socket.create_connection(("127.0.0.1", port), timeout=1).close()
    except OSError:
        return False
    return True


class Server:
    """What the servers share: a directory, a port, certificates where TLS is asked for, and a file of the password."""

    program = ""

    def __init__(self, room: Path, is_guarded: bool = False) -> None:
        self.room, self.is_guarded, self.port = room, is_guarded, free_port()
        self.open_port = free_port() if is_guarded else self.port
        self.process: subprocess.Popen | None = None
        room.chmod(0o777)
        if is_guarded:
            make_certificates(room)
            (room / "server.key").chmod(0o644)
        self.password_file = room / "password"
        self.write_password(PASSWORD)

    @classmethod
    def is_there(cls) -> bool:
        """Whether the server is on this machine."""
        return shutil.which(cls.program, path=BINARIES) is not None

    def write_password(self, password: str) -> None:
        """Puts a password into the file that the bridge reads."""
        self.password_file.write_text(f"{password}\n", encoding="ascii")

    def security_words(self) -> list[object]:
        """The bridge's words for TLS, user and password."""
        if not self.is_guarded:
            return []
        own = ["--cert", self.room / "server.pem", "--key", self.room / "server.key"]
        return ["--cafile", self.room / "ca.pem", "--user", USER, "--password-file", self.password_file, *own]

    def launch(self, *words: object, environment: dict[str, str] | None = None) -> None:
        """Starts the server's process, and waits until it listens."""
        command = [shutil.which(self.program, path=BINARIES) or self.program, *map(str, words)]
        # pylint: disable-next=consider-using-with
        self.process = subprocess.Popen(
            command,
            env={**os.environ, **(environment or {})},
            cwd=self.room,
            start_new_session=True,
            stdout=subprocess.DEVNULL,
            stderr=subprocess.DEVNULL,
        )
        if not until(lambda: listens(self.port), 60):
            raise OSError(f"{self.program} does not listen within a minute")

    def start(self) -> None:
        """Starts the server."""
        raise NotImplementedError

    def stop(self) -> None:
        """Ends the server."""
        if self.process and self.process.poll() is None:
            self.process.terminate()
            self.process.wait(30)

    def crash(self) -> None:
        """Ends it as roughly as it promises to bear."""
        self.stop()


class Mosquitto(Server):
    """A broker of MQTT, which keeps what is retained over its end, though not over being killed."""

    program = "mosquitto"

    def start(self) -> None:
        """Starts it."""
        lines = ["per_listener_settings true", "persistence true", f"persistence_location {self.room}/"]
        lines += ["autosave_interval 1", "autosave_on_changes true", "max_queued_messages 0", "user root"]
        lines += [f"listener {self.open_port} 127.0.0.1", "allow_anonymous true"]
        if self.is_guarded:
            users = self.room / "users"
            subprocess.run(["mosquitto_passwd", "-c", "-b", users, USER, PASSWORD], capture_output=True, check=True)
            lines += [f"listener {self.port} 127.0.0.1", "allow_anonymous false", f"password_file {users}"]
            lines += [f"certfile {self.room}/server.pem", f"keyfile {self.room}/server.key"]
            lines += [f"cafile {self.room}/ca.pem", "require_certificate true"]
        (self.room / "conf").write_text("\n".join(lines) + "\n", encoding="ascii")
        self.launch("-c", self.room / "conf")


class Postgresql(Server):
    """A database."""

    program = "psql"

    def __init__(self, room: Path, is_guarded: bool = False) -> None:
        super().__init__(room, is_guarded)
        self.data = room / "data"
        self.password_file.chmod(0o644)
        self.tools = Path(sorted(glob.glob("/usr/lib/postgresql/*/bin/initdb"))[-1]).parent
        words = ["--pwfile", self.password_file, "-A", "scram-sha-256"] if is_guarded else ["-A", "trust"]
        self.run(self.tools / "initdb", "-D", self.data, "-U", USER, *words)
        if is_guarded:
            self.guard()

    @classmethod
    def is_there(cls) -> bool:
        """Whether the server is on this machine."""
        return bool(glob.glob("/usr/lib/postgresql/*/bin/initdb"))

    def guard(self) -> None:
        """Has it ask for TLS and the password, and keeps the password's file as libpq wants it."""
        (self.data / "pg_hba.conf").write_text("hostssl all all 127.0.0.1/32 scram-sha-256\n", encoding="ascii")
        for name in ("server.pem", "server.key"):
            shutil.copy(self.room / name, self.data / name)
            shutil.chown(self.data / name, self.data.owner())
            (self.data / name).chmod(0o600)
        with (self.data / "postgresql.conf").open("a", encoding="ascii") as conf:
            conf.write("ssl = on\nssl_cert_file = 'server.pem'\nssl_key_file = 'server.key'\n")
        self.write_password(PASSWORD)
        self.password_file.chmod(0o600)

    def write_password(self, password: str) -> None:
        """Puts a password into the file: at first as initdb reads it, then as libpq does."""
        is_made = (self.room / "data").exists()
        self.password_file.write_text(f"*:*:*:{USER}:{password}\n" if is_made else f"{password}\n", encoding="ascii")

    def run(self, *words: object) -> None:
        """Runs a tool as a user who is not root."""
        as_user = ["runuser", "-u", "postgres", "--"] if os.geteuid() == 0 else []
        subprocess.run([*as_user, *map(str, words)], capture_output=True, check=True, cwd="/")

    def start(self) -> None:
        """Starts it."""
        words = f"-p {self.port} -h 127.0.0.1 -k {self.room}"
        as_user = ["runuser", "-u", "postgres", "--"] if os.geteuid() == 0 else []
        command = [
            *as_user,
            str(self.tools / "pg_ctl"),
            "-D",
            str(self.data),
            "-w",
            "-l",
            str(self.room / "log"),
            "-o",
            words,
            "start",
        ]
        subprocess.run(command, stdout=subprocess.DEVNULL, stderr=subprocess.DEVNULL, check=True, cwd="/")

    def stop(self) -> None:
        """Ends it as a crash does."""
        if (self.data / "postmaster.pid").exists():
            self.run(self.tools / "pg_ctl", "-D", self.data, "-m", "immediate", "stop")

    def dsn(self) -> str:
        """The bridge's connection string."""
        guarded = f" sslmode=verify-full sslrootcert={self.room}/ca.pem passfile={self.password_file}"
        return f"host=127.0.0.1 port={self.port} user={USER} dbname=postgres" + (guarded if self.is_guarded else "")

    def rows(self, query: str) -> list[str]:
        """The rows that a query gives."""
        command = ["/usr/bin/psql", "-At", self.dsn(), "-c", query]
        environment = {**os.environ, "PGPASSWORD": PASSWORD}
        return subprocess.run(command, capture_output=True, text=True, check=False, env=environment).stdout.splitlines()


class RabbitMq(Server):
    """A broker of AMQP 1.0."""

    program = "rabbitmq-server"

    def __init__(self, room: Path, is_guarded: bool = False) -> None:
        super().__init__(room, is_guarded)
        for name in ("mnesia", "log"):
            (room / name).mkdir()
            (room / name).chmod(0o777)
        (room / "plugins").write_text("[rabbitmq_amqp1_0].\n", encoding="ascii")
        lines = [f"listeners.tcp.1 = 127.0.0.1:{self.open_port}"]
        if is_guarded:
            lines += [f"listeners.ssl.1 = 127.0.0.1:{self.port}", f"ssl_options.cacertfile = {room}/ca.pem"]
            lines += [f"ssl_options.certfile = {room}/server.pem", f"ssl_options.keyfile = {room}/server.key"]
            lines += ["ssl_options.verify = verify_peer", "ssl_options.fail_if_no_peer_cert = true"]
            lines += [f"default_user = {USER}", f"default_pass = {PASSWORD}", "amqp1_0.default_user = none"]
        (room / "rabbitmq.conf").write_text("\n".join(lines) + "\n", encoding="ascii")
        self.own = {
            "RABBITMQ_NODENAME": f"acdm{self.port}@localhost",
            "RABBITMQ_CONFIG_FILE": str(room / "rabbitmq.conf"),
            "HOME": str(room),
        }
        self.own |= {"RABBITMQ_MNESIA_BASE": str(room / "mnesia"), "RABBITMQ_LOG_BASE": str(room / "log")}
        self.own |= {"RABBITMQ_ENABLED_PLUGINS_FILE": str(room / "plugins"), "RABBITMQ_PID_FILE": str(room / "pid")}
        self.own |= {
            "RABBITMQ_DIST_PORT": str(free_port()),
            "ERL_EPMD_PORT": str(free_port()),
            "ERL_EPMD_ADDRESS": "127.0.0.1",
        }

    def start(self) -> None:
        """Starts it, and waits until its plugin answers too."""
        self.launch(environment=self.own)
        time.sleep(2)

    def signal(self, number: int) -> None:
        """Sends a signal to the broker, whose script has changed user and session: a file has its process."""
        file = self.room / "pid"
        if self.process and self.process.poll() is None and file.exists():
            os.kill(int(file.read_text(encoding="ascii")), number)
            self.process.wait(30)

    def crash(self) -> None:
        """Kills it."""
        self.signal(signal.SIGKILL)

    def stop(self) -> None:
        """Ends it, and the name server that it had started."""
        self.signal(signal.SIGTERM)
        for name_server in glob.glob("/usr/lib/erlang/erts-*/bin/epmd"):
            subprocess.run([name_server, "-kill"], env={**os.environ, **self.own}, capture_output=True, check=False)

    def url(self) -> str:
        """The URL of the broker."""
        return f"amqp{'s' if self.is_guarded else ''}://127.0.0.1:{self.port}"

    def open_url(self) -> str:
        """A URL for the test's own reader, without TLS."""
        user = f"{USER}:{quote(PASSWORD)}@" if self.is_guarded else ""
        return f"amqp://{user}127.0.0.1:{self.open_port}"
