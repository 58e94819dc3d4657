"""Public applications' schemas, of the distribution, with seven or ten views each as their operators write them: how many are taken as they are written."""

import gzip
import os
import subprocess
import tempfile
from pathlib import Path

from trials.servers.postgresql import Broken
from trials.views.applications import access, backups, feeds, hosts, leases, messages, services, tickets, zones
from trials.views.kept import Kept

APPLICATIONS = tuple(each.APPLICATION for each in (hosts, feeds, backups, services))
OTHERS = tuple(each.APPLICATION for each in (tickets, leases, access, messages, zones))


def schema(application):
    """The statements of a schema, from the distribution's package, or None where it cannot be had."""
    with tempfile.TemporaryDirectory() as folder:
        os.chmod(folder, 0o777)
        got = subprocess.run(["apt-get", "download", application.package], cwd=folder, capture_output=True)
        files = list(Path(folder).glob("*.deb"))
        if got.returncode or not files:
            return None
        subprocess.run(["dpkg", "-x", files[0], folder], check=True)
        content = (Path(folder) / application.file).read_bytes()
        return (gzip.decompress(content) if application.file.endswith(".gz") else content).decode()


def public_mistakes(server, only="", applications=APPLICATIONS):
    """What is wrong with the views of all applications that have this in the names of their packages."""
    found = [of_application(server, each) for each in applications if only in each.package]
    return [each for wrong, _ in found for each in wrong], "\n".join(told for _, told in found)


def opened(server, folder, application, made):
    """A database with an application's schema, its first rows, and its views, which nobody has taken."""
    kept = Kept(server, "public_application", folder)
    kept.said(made)
    kept.said(application.first)
    for name, query in application.views.items():
        kept.session.rows(f"CREATE VIEW {name} AS {query}")
    return kept


def of_application(server, application):
    """What is wrong with the views of one, and how many are taken as they are written, one by one and all together."""
    made, views = schema(application), application.views
    if made is None:
        return [], f"{application.package} cannot be had: none of its views are tried"
    with tempfile.TemporaryDirectory() as folder:
        kept = opened(server, folder, application, made)
        try:
            refused = kept.refused(list(views))
            wrong = [f"opened: {each}" for each in kept.differences()]
            for day, statements in application.days.items():
                kept.said(statements)
                kept.night()
                wrong += [f"{day}: {each}" for each in kept.differences()]
        except Broken as fault:
            return [f"{application.package}: {fault.told[:900]}"], "broken"
        finally:
            kept.close()
        wrong += [f"refused as it is written: {name}: {why}" for name, why in refused.items()]
        tables = made.upper().count("CREATE TABLE")
        return [f"{application.package}: {each}" for each in wrong], f"{len(views) - len(refused)} of {len(views)} views over {application.package}'s {tables} tables as they are written"
