"""ClickHouse servers of a test's own: each a process in a temporary folder, on free ports of this machine, with little memory."""

import ctypes
import os
import shutil
import signal
import socket
import subprocess
import tempfile
import time
from contextlib import suppress
from http.client import HTTPConnection, HTTPException
from pathlib import Path

from trials.servers.installed import install
from trials.servers.links import Link
from whview.cluster.servers import Lost, Server, Told

NAME = "tried"
# How many servers a shard has where there are replicas.
COPIES = 2
CONFIG = """<yandex><logger><level>warning</level><log>{folder}/log</log></logger><listen_host>127.0.0.1</listen_host>
<http_port>{http}</http_port><tcp_port>{tcp}</tcp_port><interserver_http_port>{between}</interserver_http_port>
<path>{folder}/data/</path><tmp_path>{folder}/data/tmp/</tmp_path><users_config>users.xml</users_config>
<default_profile>default</default_profile><default_database>default</default_database><mark_cache_size>67108864</mark_cache_size>
<uncompressed_cache_size>8388608</uncompressed_cache_size><keep_alive_timeout>3</keep_alive_timeout>
<merge_tree><old_parts_lifetime>10</old_parts_lifetime></merge_tree>
{more}<remote_servers><{name}>{shards}</{name}>{routes}</remote_servers></yandex>
"""
SHARD = "<shard><replica><host>127.0.0.1</host><port>{tcp}</port></replica></shard>"
USERS = """<yandex><profiles><default><max_memory_usage>{memory}</max_memory_usage><max_threads>1</max_threads>
<background_pool_size>2</background_pool_size><skip_unavailable_shards>1</skip_unavailable_shards></default>
<hasty><max_threads>1</max_threads><max_rows_to_group_by>1</max_rows_to_group_by><group_by_overflow_mode>any</group_by_overflow_mode></hasty>
<own_ways><max_threads>1</max_threads><distributed_group_by_no_merge>1</distributed_group_by_no_merge><distributed_product_mode>local</distributed_product_mode>
<empty_result_for_aggregation_by_empty_set>1</empty_result_for_aggregation_by_empty_set><extremes>1</extremes></own_ways></profiles>
<users><default><password></password><networks><ip>127.0.0.1</ip></networks><profile>default</profile><quota>default</quota></default>
<hasty><password></password><networks><ip>127.0.0.1</ip></networks><profile>hasty</profile><quota>default</quota></hasty>
<own_ways><password></password><networks><ip>127.0.0.1</ip></networks><profile>own_ways</profile><quota>default</quota></own_ways>
<clerk><password>se'cret \\ word</password><networks><ip>127.0.0.1</ip></networks><profile>default</profile><quota>default</quota></clerk>
</users><quotas><default></default></quotas></yandex>
"""
MEMORY = 700_000_000
PR_SET_PDEATHSIG = 1


def installed():
    """The server's program, or None. Where the system's programs are looked for, those of /usr/sbin are too."""
    path = os.environ.get("PATH", "")
    return shutil.which("clickhouse-server", path=f"{path}:/usr/sbin" if "/usr/bin" in path.split(":") else path)


def clickhouse():
    """The server's program, which is installed where it is missing and that can be done; else None."""
    install("clickhouse-server", installed)
    return installed()


def free_ports(count):
    sockets = [socket.create_server(("127.0.0.1", 0)) for _ in range(count)]
    ports = [each.getsockname()[1] for each in sockets]
    for each in sockets:
        each.close()
    return ports


def dies_with_its_parent():
    """Has a server end where the test that started it is killed."""
    ctypes.CDLL(None).prctl(PR_SET_PDEATHSIG, signal.SIGKILL)


class Process:
    """A server that can be killed and started again."""

    def __init__(self, program, folder, ports):
        self.program, self.folder, (self.http, self.tcp, self.between), self.process = program, folder, ports, None

    @property
    def address(self):
        return f"127.0.0.1:{self.http}"

    def configure(self, shards, memory, routes="", more=""):
        (self.folder / "data").mkdir(parents=True, exist_ok=True)
        words = {"folder": self.folder, "http": self.http, "tcp": self.tcp, "between": self.between, "name": NAME}
        (self.folder / "config.xml").write_text(CONFIG.format(**words, shards=shards, routes=routes, more=more))
        (self.folder / "users.xml").write_text(USERS.format(memory=memory))

    def start(self):
        with (self.folder / "out").open("ab") as out:
            self.process = subprocess.Popen(
                [self.program, f"--config-file={self.folder}/config.xml"], cwd=self.folder, stdout=out, stderr=out, start_new_session=True,
                preexec_fn=dies_with_its_parent,
            )
        return self

    def wait(self, seconds=300):
        end = time.monotonic() + seconds
        while time.monotonic() < end:
            with suppress(OSError, HTTPException):
                connection = HTTPConnection("127.0.0.1", self.http, timeout=5)
                connection.request("GET", "/ping")
                if connection.getresponse().read() == b"Ok.\n":
                    return self
            if self.process.poll() is not None:
                break
            time.sleep(0.05)
        told = "".join((self.folder / said).read_text(errors="replace")[-2500:] for said in ("out", "log") if (self.folder / said).exists())
        raise RuntimeError(f"a ClickHouse server did not start: {told}")

    def kill(self):
        self.process.kill()
        self.process.wait()

    def stop(self):
        """Asks the server to end, and kills it where it does not."""
        if self.process and self.process.poll() is None:
            self.process.terminate()
            try:
                self.process.wait(10)
            except subprocess.TimeoutExpired:
                self.kill()

    def seconds(self):
        """The processor's time of the running server."""
        with suppress(OSError, IndexError):
            fields = Path(f"/proc/{self.process.pid}/stat").read_text().rpartition(")")[2].split()
            return (int(fields[11]) + int(fields[12])) / os.sysconf("SC_CLK_TCK")
        return 0


class Processes:
    """Servers that know each other. They are stopped however a test ends."""

    def __init__(self, program, count, memory=MEMORY, keeper=None, linked=False):
        self.program, self.count, self.memory = program, count, memory
        # Where servers reach each other by links that can be cut, those to each of them.
        self.is_linked, self.links = linked, []
        # What makes a ZooKeeper in a folder, where the servers have replicas.
        self.keeper_of, self.keeper = keeper, None

    def __enter__(self):
        self.folder = Path(tempfile.mkdtemp(prefix="whview_cluster"))
        ports = free_ports(3 * self.count)
        self.all = [Process(self.program, self.folder / str(at), ports[3 * at : 3 * at + 3]) for at in range(self.count)]
        self.links = [Link(each.tcp) for each in self.all] if self.is_linked else []
        try:
            if self.keeper_of:
                self.keeper = self.keeper_of(self.folder).start().wait()
            self.configure()
            for each in self.all:
                each.start()
            for each in self.all:
                each.wait()
            if self.keeper:
                self.meet()
        except BaseException:
            self.__exit__()
            raise
        return self

    def configure(self):
        """Has each server's configuration say where all of them are."""
        ways = [SHARD.format(tcp=port) for port in ([link.port for link in self.links] or [each.tcp for each in self.all])]
        routes = "".join(f"<{NAME}_{number}>{way}</{NAME}_{number}>" for number, way in enumerate(ways, 1))
        if self.keeper:
            ways = ["<shard>" + "".join(ways[at : at + COPIES]).replace("<shard>", "").replace("</shard>", "") + "</shard>" for at in range(0, len(ways), COPIES)]
        for each in self.all:
            each.configure("".join(ways), self.memory, *((routes, self.keeper.words()) if self.keeper else ()))

    def move(self, process):
        """Has a server that is down be on other ports, which all others are told; they read their configuration again by themselves."""
        process.http, process.tcp, process.between = free_ports(3)
        self.configure()

    def meet(self, seconds=300):
        """Waits until all servers that run have a session of ZooKeeper's."""
        end = time.monotonic() + seconds
        for each in self.all:
            while True:
                try:
                    Server(each.address).asked("SELECT name FROM system.zookeeper WHERE path = '/'")
                    break
                except (Lost, Told):
                    if time.monotonic() > end:
                        raise
                    time.sleep(0.1)

    def __exit__(self, *_):
        for each in self.all:
            each.stop()
        for each in self.links:
            each.close()
        if self.keeper:
            self.keeper.stop()
        shutil.rmtree(self.folder, ignore_errors=True)

    def addresses(self):
        return [each.address for each in self.all]

    def servers(self, kind=Server, **words):
        found = [kind(each.address, **words) for each in self.all]
        for server in found:
            server.learn()
        return found

    def known(self, kind=Server, **words):
        """Clients of the servers, of which some may be down."""
        return [kind(each.address, **words) for each in self.all]

    def restart(self):
        self.restart_all(self.all)

    def restart_all(self, listed):
        """Starts those of some servers that are down."""
        for each in listed:
            if each.process.poll() is not None:
                each.start()
        for each in listed:
            each.wait()

    def seconds(self):
        return sum(each.seconds() for each in self.all)
