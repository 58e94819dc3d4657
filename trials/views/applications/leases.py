"""Leases of addresses, kea of the distribution: what its operators want to see, over leases of both kinds, hosts and reservations."""

from trials.views.applications.application import Application

VIEWS = {
    "leases_by_subnet": "SELECT l.subnet_id, s.name AS state, count(*) AS leases, count(*) FILTER (WHERE l.fqdn_fwd) AS in_dns, max(l.expire) AS last FROM lease4 l"
    " JOIN lease_state s ON s.state = l.state GROUP BY l.subnet_id, s.name",
    "clients_with_several": "SELECT l.hwaddr, count(*) AS leases, count(DISTINCT l.subnet_id) AS subnets FROM lease4 l WHERE l.state = 0 GROUP BY l.hwaddr HAVING count(*) > 1",
    "last_of_client": "SELECT DISTINCT ON (l.client_id) l.client_id, l.address, l.hostname, l.expire FROM lease4 l WHERE l.client_id IS NOT NULL"
    " ORDER BY l.client_id, l.expire DESC, l.address",
    "unreserved": "SELECT l.address, encode(l.hwaddr, 'hex') AS hardware FROM lease4 l WHERE NOT EXISTS (SELECT 1 FROM hosts h WHERE h.dhcp_identifier = l.hwaddr"
    " AND h.dhcp4_subnet_id = l.subnet_id)",
    "reservations": "SELECT h.host_id, h.hostname, count(r.reservation_id) AS addresses, min(r.prefix_len) AS shortest FROM hosts h"
    " LEFT JOIN ipv6_reservations r ON r.host_id = h.host_id GROUP BY h.host_id",
    "both_kinds": "SELECT 4 AS version, subnet_id, count(*) AS leases FROM lease4 GROUP BY subnet_id UNION ALL SELECT 6, subnet_id, count(*) FROM lease6 GROUP BY subnet_id",
    "types": "SELECT t.name, count(l.address) AS leases, round(avg(l.valid_lifetime), 2) AS lifetime, bool_or(l.fqdn_rev) AS any_reverse FROM lease6_types t"
    " LEFT JOIN lease6 l ON l.lease_type = t.lease_type GROUP BY t.name",
}
FIRST = """
SET session_replication_role = replica;
INSERT INTO lease4 (address, hwaddr, client_id, valid_lifetime, expire, subnet_id, fqdn_fwd, fqdn_rev, hostname, state)
  SELECT 167772160 + i, decode(lpad(to_hex(i % 40), 12, '0'), 'hex'), CASE WHEN i % 3 > 0 THEN decode(lpad(to_hex(i % 25), 8, '0'), 'hex') END, 3600,
    timestamptz '2026-03-01 UTC' + i / 2 * interval '1 hour', 1 + i % 5, i % 2 = 0, i % 4 = 0, 'host' || i, i % 7 / 3 FROM generate_series(1, 120) AS i;
INSERT INTO lease6 (address, duid, valid_lifetime, expire, subnet_id, lease_type, fqdn_rev, state)
  SELECT '2001:db8::' || to_hex(i), '\\x01', i * 10, '2026-03-02 UTC', nullif(i % 4, 0), i % 2 * 2, i % 5 = 0, 0 FROM generate_series(1, 60) AS i;
INSERT INTO hosts (host_id, dhcp_identifier, dhcp_identifier_type, dhcp4_subnet_id, hostname)
  SELECT i, decode(lpad(to_hex(i), 12, '0'), 'hex'), 0, 1 + i % 5, 'reserved ' || i FROM generate_series(1, 20) AS i;
INSERT INTO ipv6_reservations (address, prefix_len, type, host_id) SELECT ('2001:db8:1::' || to_hex(i)), 64 + i % 3 * 32, 0, 1 + i % 15 FROM generate_series(1, 30) AS i;
SET session_replication_role = origin;
"""
DAYS = {
    "leases end": """
SET session_replication_role = replica;
UPDATE lease4 SET state = 2, expire = expire + interval '2 days' WHERE address % 6 = 1;
UPDATE lease4 SET hwaddr = '\\x000000000001', client_id = '\\x00000007' WHERE address % 17 = 3;
DELETE FROM lease4 WHERE subnet_id = 2;
DELETE FROM lease6 WHERE valid_lifetime > 500;
INSERT INTO lease6 (address, valid_lifetime, subnet_id, lease_type, state) VALUES ('2001:db8:2::1', NULL, 9, 1, 0);
DELETE FROM ipv6_reservations WHERE host_id = 4;
UPDATE hosts SET dhcp4_subnet_id = 1 WHERE host_id % 3 = 0;
SET session_replication_role = origin;
""",
    "NULL and ties": """
SET session_replication_role = replica;
UPDATE lease4 SET expire = '2026-05-01 UTC', fqdn_fwd = NULL WHERE subnet_id = 3;
UPDATE lease4 SET client_id = NULL, hwaddr = NULL WHERE address % 5 = 2;
UPDATE lease6 SET subnet_id = NULL, fqdn_rev = NULL WHERE lease_type = 0;
DELETE FROM hosts WHERE host_id > 15;
UPDATE lease_state SET name = 'taken' WHERE state = 0;
SET session_replication_role = origin;
""",
}
APPLICATION = Application("kea-admin", "usr/share/kea/scripts/pgsql/dhcpdb_create.pgsql", VIEWS, FIRST, DAYS)
