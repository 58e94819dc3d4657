"""A ZooKeeper of a test's own: a process in a temporary folder, on a free port of this machine, with little memory."""

import shutil
import socket
import subprocess
import time
from contextlib import suppress
from pathlib import Path

from trials.servers.clickhouse import dies_with_its_parent, free_ports
from trials.servers.installed import install

JAR, LOGGING = Path("/usr/share/java/zookeeper.jar"), Path("/usr/share/java/slf4j-simple.jar")
# A session whose server was killed ends after some of these ticks.
CONFIG = """tickTime=500
dataDir={folder}/data
clientPort={port}
clientPortAddress=127.0.0.1
admin.enableServer=false
maxClientCnxns=0
4lw.commands.whitelist=ruok
"""
# A test's own has nothing to keep when the machine goes down.
QUICK = ("-XX:+UseSerialGC", "-XX:TieredStopAtLevel=1", "-Dzookeeper.forceSync=no")
MAIN = "org.apache.zookeeper.server.ZooKeeperServerMain"
IN_CLICKHOUSE = (
    "<zookeeper><node><host>127.0.0.1</host><port>{port}</port></node><session_timeout_ms>6000</session_timeout_ms></zookeeper>"
    "<interserver_http_host>127.0.0.1</interserver_http_host>"
)


def installed():
    """The program that runs it, or None."""
    return shutil.which("java") if JAR.exists() else None


def zookeeper():
    """The program that runs it, which is installed where it is missing and that can be done; else None."""
    install("zookeeper", installed)
    return installed()


class ZooKeeper:
    """A ZooKeeper, which is stopped however a test ends."""

    def __init__(self, folder):
        self.folder, self.process = Path(folder) / "zookeeper", None
        (self.port,) = free_ports(1)

    def start(self):
        (self.folder / "data").mkdir(parents=True, exist_ok=True)
        (self.folder / "zoo.cfg").write_text(CONFIG.format(folder=self.folder, port=self.port))
        words = ["java", "-Xmx128m", *QUICK, "-Dorg.slf4j.simpleLogger.defaultLogLevel=warn", "-cp", f"{LOGGING}:{JAR}", MAIN]
        with (self.folder / "out").open("ab") as out:
            self.process = subprocess.Popen(
                [*words, str(self.folder / "zoo.cfg")], cwd=self.folder, stdout=out, stderr=out, start_new_session=True,
                preexec_fn=dies_with_its_parent,
            )
        return self

    def wait(self, seconds=300):
        end = time.monotonic() + seconds
        while time.monotonic() < end:
            with suppress(OSError):
                with socket.create_connection(("127.0.0.1", self.port), 5) as connection:
                    connection.sendall(b"ruok")
                    if connection.recv(4) == b"imok":
                        return self
            if self.process.poll() is not None:
                break
            time.sleep(0.1)
        raise RuntimeError(f"ZooKeeper did not start: {(self.folder / 'out').read_text(errors='replace')[-800:]}")

    def words(self):
        """What the configuration of a ClickHouse server says of it."""
        return IN_CLICKHOUSE.format(port=self.port)

    def stop(self):
        if self.process and self.process.poll() is None:
            self.process.kill()
            self.process.wait()
