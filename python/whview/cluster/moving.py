"""`readdress` and `config`: a warehouse's servers under other addresses, and what each of them has to know of the others."""

from __future__ import annotations

import re
from html import escape
from typing import TYPE_CHECKING

from ..finding import Failure
from ..sql.tokens import sql
from . import links
from .replicas import judge_count
from .status import BAD_WORDS
from .warehouse import form_of

if TYPE_CHECKING:
    from collections.abc import Sequence

    from .replicas import Replicas
    from .servers import Server
    from .warehouse import Made, Warehouse

# The engine's own ports by which servers speak with each other, without and with TLS.
NATIVE, NATIVE_BY_TLS = 9000, 9440
TAG = re.compile("[A-Za-z_][A-Za-z0-9_.-]*")


def readdress(warehouse: Warehouse) -> None:
    """Has each server keep the addresses by which the command calls them now. They have to be the same servers, in the same order."""
    servers = warehouse.servers
    servers.each(lambda server: server.learn())
    kept = [warehouse.there(server, made) for server, made in zip(servers.all, servers.each(warehouse.made))]
    first = kept[0]
    wanted = [warehouse.words(own, first.mark)._replace(shards=first.shards) for own in range(len(servers))]
    for server, made, words in zip(servers.all, kept, wanted):
        warehouse.compare(server, made._replace(servers=words.servers, cluster=words.cluster), words)
    if len(first.servers) != len(servers):
        raise Failure(BAD_WORDS, f"whview cluster: {warehouse.dialect.schema} has {len(first.servers)} servers, and not {len(servers)}")
    links.judge(warehouse, warehouse.plain.all_servers(), first.mark)
    for server, words in zip(servers.all, wanted):
        keep(warehouse, server, words)


def readdress_replicas(replicas: Replicas) -> list[Server]:
    """The same where there are replicas, by the servers that answer; one that does not is told when it is said again. Answers those."""
    found, plain = replicas.answering(), replicas.plain()
    first = found[0][1]
    shards = replicas.shards or first.shards
    numbers, form = [replicas.servers.index(server) for server, _ in found], form_of(replicas.replicas)
    wanted = [plain.words(own, first.mark)._replace(shards=shards, replicas=replicas.replicas, form=form) for own in numbers]
    for (server, made), words in zip(found, wanted):
        plain.compare(server, made._replace(servers=words.servers, cluster=words.cluster), words)
    if len(first.servers) != len(replicas.servers):
        raise Failure(BAD_WORDS, f"whview cluster: {replicas.database} has {len(first.servers)} servers, and not {len(replicas.servers)}")
    living = [server for server, _ in found]
    warehouse = replicas.of(living, living[:1], first.mark)
    links.judge_routes(warehouse)
    for server, words in zip(living, wanted):
        keep(warehouse, server, words)
    return [server for server in replicas.servers if server not in living]


def keep(warehouse: Warehouse, server: Server, words: Made) -> None:
    """A server keeps these words for those that it has."""
    own, new, old = (warehouse.dialect.table(f"~w{end}") for end in ("", "2", "1"))
    for said in (
        sql("DROP TABLE IF EXISTS {new}", new=new),
        sql("CREATE VIEW {new} AS {words}", new=new, words=words.literals()),
        sql("DROP TABLE IF EXISTS {old}", old=old),
        sql("RENAME TABLE {own} TO {old}, {new} TO {own}", own=own, old=old, new=new),
        sql("DROP TABLE IF EXISTS {old}", old=old),
    ):
        server.carried(warehouse.written(said))


def config(servers: Sequence[str], cluster: str, port: int | None, is_https: bool, user: str, replicas: int = 1) -> str:
    """What each server's configuration has to have of the others, as a file of `config.d/`. Where there are replicas each server has a name of
    its own, since a command says which of a shard's are asked; readers by SQL ask any of them."""
    if not TAG.fullmatch(cluster):
        raise Failure(BAD_WORDS, f"whview cluster: {cluster!r} cannot stand in a configuration: say --cluster NAME, of letters and digits")
    native = port or (NATIVE_BY_TLS if is_https else NATIVE)
    more = ["<secure>1</secure>"] if is_https else []
    more += [f"<user>{escape(user, quote=False)}</user>", "<password>PASSWORD</password>"] if user != "default" else []
    shards = []
    for server in servers:
        host = server.rpartition(":")[0].strip("[]")
        replica = "".join([f"<host>{escape(host, quote=False)}</host>", f"<port>{native}</port>", *more])
        shards.append(f"<shard><weight>1</weight><replica>{replica}</replica></shard>")
    if replicas == 1:
        named = [f"    <{cluster}>", *(f"      {shard}" for shard in shards), f"    </{cluster}>"]
    else:
        judge_count(len(servers), replicas)
        routes = [links.route(cluster, own) for own in range(len(servers))]
        named = [f"    <{name}>{shard}</{name}>" for name, shard in zip(routes, shards)]
        whole = [several(shards[at : at + replicas]) for at in range(0, len(shards), replicas)]
        named += [f"    <{cluster}>", *(f"      {shard}" for shard in whole), f"    </{cluster}>"]
    known = ["  <zookeeper><node><host>ZOOKEEPER</host><port>2181</port></node></zookeeper>"] if replicas > 1 else []
    return "\n".join(["<yandex>", *known, "  <remote_servers>", *named, "  </remote_servers>", "</yandex>", ""])


def several(shards: Sequence[str]) -> str:
    """A shard of the servers of several."""
    replicas = "".join(re.findall("<replica>.*</replica>", "".join(f"{each}\n" for each in shards)))
    return f"<shard><weight>1</weight><internal_replication>true</internal_replication>{replicas}</shard>"
