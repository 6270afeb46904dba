"""PostgreSQL and MariaDB servers of the tests' own, over sockets in a temporary folder; None where they are not on this machine."""
import os
import pwd
import shutil
import subprocess
import tempfile
import time
from pathlib import Path


def find(name, *folders):
    """A program on PATH or in one of these folders."""
    for folder in filter(None, folders):
        for place in sorted(Path("/").glob(folder.lstrip("/")), reverse=True):
            if os.access(place / name, os.X_OK):
                return str(place / name)
    return shutil.which(name)


class Server:
    """A server in a folder of its own; as root it runs as another user where there is one."""

    user = None

    def __init__(self):
        self.place = Path(tempfile.mkdtemp(prefix="qfix-server-"))
        self.process = None
        if os.getuid() == 0:
            entry = pwd.getpwnam(self.user)
            os.chown(self.place, entry.pw_uid, entry.pw_gid)

    def command(self, *words, **more):
        if os.getuid() == 0:
            entry = pwd.getpwnam(self.user)
            more.update(user=entry.pw_uid, group=entry.pw_gid, extra_groups=[])
        return subprocess.Popen([str(it) for it in words], cwd=self.place, stdout=subprocess.PIPE, stderr=subprocess.STDOUT, **more)

    def must(self, *words):
        made = self.command(*words)
        said = made.communicate()[0]
        if made.returncode:
            raise RuntimeError(said.decode(errors="replace")[-800:])

    def wait(self, ready, seconds=60):
        end = time.monotonic() + seconds
        while time.monotonic() < end:
            if ready():
                return
            if self.process.poll() is not None:
                break
            time.sleep(0.3)
        raise RuntimeError("the server did not start")

    def stop(self):
        if self.process and self.process.poll() is None:
            self.process.terminate()
            try:
                self.process.wait(30)
            except subprocess.TimeoutExpired:
                self.process.kill()
        shutil.rmtree(self.place, ignore_errors=True)


class Postgres(Server):
    user = "postgres"

    def __init__(self):
        super().__init__()
        bins = "/usr/lib/postgresql/*/bin"
        self.must(find("initdb", bins), "-D", "data", "-A", "trust", "-U", "tester", "-E", "UTF8", "--no-sync")
        settings = {
            "listen_addresses": "",
            "unix_socket_directories": str(self.place),
            "logging_collector": "on",
            "log_destination": "csvlog",
            "log_statement": "all",
            "log_directory": str(self.place),
            "log_filename": "server",
            "log_rotation_age": "0",
            "fsync": "off",
            "max_connections": "10",
            "shared_buffers": "16MB",
        }
        words = [word for name, value in settings.items() for word in ("-c", f"{name}={value}")]
        self.process = self.command(find("postgres", bins), "-D", "data", *words)
        self.wait(lambda: self.psql("SELECT 1", base="postgres").returncode == 0)
        self.psql("CREATE DATABASE shop", base="postgres")
        self.log = self.place / "server.csv"

    def psql(self, sql, base="shop", *more):
        """Runs statements in one connection, each by itself; goes on after a fault."""
        return subprocess.run(
            ["psql", "-X", "-q", "-h", str(self.place), "-U", "tester", "-d", base, "-f", "-", *more], input=sql.encode(), capture_output=True
        )

    def csv(self, sql, path):
        path.write_bytes(self.psql(sql, "shop", "--csv", "-P", r"null=\N").stdout)

    def since(self, start, number):
        """The log from a place on, once a mark is in it."""
        self.psql(f"SELECT 'mark {number}'")
        end = time.monotonic() + 20
        while time.monotonic() < end:
            text = self.log.read_bytes()[start:]
            if f"mark {number}".encode() in text and text.endswith(b"\n"):
                return text.decode()
            time.sleep(0.1)
        raise RuntimeError("the log does not come")

    def now(self):
        return self.log.stat().st_size if self.log.exists() else 0


class Maria(Server):
    user = "mysql"

    def __init__(self):
        super().__init__()
        install = find("mariadb-install-db") or find("mysql_install_db")
        self.must(install, "--no-defaults", f"--datadir={self.place}/data", "--auth-root-authentication-method=normal", "--skip-test-db")
        daemon = find("mariadbd", "/usr/sbin") or find("mysqld", "/usr/sbin")
        self.process = self.command(
            daemon,
            "--no-defaults",
            f"--datadir={self.place}/data",
            f"--socket={self.place}/socket",
            f"--pid-file={self.place}/pid",
            "--skip-networking",
            "--general-log=1",
            f"--general-log-file={self.place}/general.log",
            f"--log-bin={self.place}/bin",
            "--binlog-format=STATEMENT",
            "--server-id=1",
            "--character-set-server=utf8mb4",
            "--innodb-buffer-pool-size=16M",
            "--innodb-flush-log-at-trx-commit=0",
        )
        self.wait(lambda: self.mysql("SELECT 1", base="").returncode == 0)
        self.mysql("CREATE DATABASE shop", base="")
        self.log = self.place / "general.log"

    def mysql(self, sql, base="shop", *more):
        words = [
            "mysql",
            "--no-defaults",
            f"--socket={self.place}/socket",
            "-u",
            "root",
            "--default-character-set=utf8mb4",
            "--force",
            "--comments",
            *more,
        ]
        return subprocess.run([*words, base] if base else words, input=sql.encode(), capture_output=True)

    def tsv(self, sql, path):
        path.write_bytes(self.mysql(sql, "shop", "--batch").stdout)

    def binlog(self):
        """Begins a new binlog and answers the text of the one before."""
        found = sorted(self.place.glob("bin.[0-9]*"))[-1]
        self.mysql("FLUSH BINARY LOGS")
        return subprocess.run([find("mariadb-binlog") or "mysqlbinlog", "--no-defaults", str(found)], capture_output=True).stdout.decode()


def start(kind, needed):
    """A server, or the reason why there is none."""
    missing = [name for name, folder in needed if not find(name, folder)]
    if missing:
        return None, f"{missing[0]} is not on this machine"
    if os.getuid() == 0:
        try:
            pwd.getpwnam(kind.user)
        except KeyError:
            return None, f"there is no user {kind.user} to run the server"
    made = None
    try:
        made = kind.__new__(kind)
        made.__init__()
        return made, ""
    except (OSError, RuntimeError) as error:
        if hasattr(made, "place"):
            made.process = getattr(made, "process", None)
            made.stop()
        return None, " ".join(str(error).split())[-200:]


def postgres():
    return start(Postgres, [("initdb", "/usr/lib/postgresql/*/bin"), ("postgres", "/usr/lib/postgresql/*/bin"), ("psql", "")])


def maria():
    return start(Maria, [("mariadb-install-db", ""), ("mariadbd", "/usr/sbin"), ("mysql", ""), ("mariadb-binlog", "")])
