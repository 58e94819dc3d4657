"""Monitored hosts, zabbix of the distribution: what its operators want to see, over some hosts, items, problems and alerts."""

from trials.views.applications.application import Application

VIEWS = {
    "hosts_by_status": "SELECT status, count(*) AS hosts, count(*) FILTER (WHERE maintenance_status = 1) AS in_maintenance FROM hosts WHERE flags IN (0, 4) GROUP BY status",
    "items_by_host": "SELECT h.host, i.value_type, count(*) AS items, count(*) FILTER (WHERE i.status = 1) AS disabled FROM hosts h JOIN items i ON i.hostid = h.hostid"
    " WHERE h.status = 0 GROUP BY h.host, i.value_type",
    "open_problems": "SELECT severity, count(*) AS problems, min(to_timestamp(clock)) AS oldest, bool_or(acknowledged = 1) AS any_acknowledged FROM problem"
    " WHERE source = 0 AND r_eventid IS NULL GROUP BY severity ORDER BY severity DESC",
    "events_by_day": "SELECT date_trunc('day', to_timestamp(clock)) AS day, value, count(*) AS events FROM events WHERE source = 0 AND object = 0 GROUP BY 1, 2",
    "hosts_without_items": "SELECT h.hostid, h.name FROM hosts h WHERE NOT EXISTS (SELECT 1 FROM items i WHERE i.hostid = h.hostid AND i.status = 0)",
    "latest_values": "SELECT DISTINCT ON (h.itemid) h.itemid, i.name, to_timestamp(h.clock) AS at, h.value FROM history h JOIN items i USING (itemid)"
    " ORDER BY h.itemid, h.clock DESC, h.ns DESC",
    "last_logins": "SELECT u.username, coalesce(u.name || ' ' || u.surname, u.username) AS person, count(s.sessionid) AS sessions, to_timestamp(max(s.lastaccess)) AS last_access"
    " FROM users u LEFT JOIN sessions s ON s.userid = u.userid GROUP BY u.userid, u.username, u.name, u.surname",
    "groups_of_hosts": "SELECT h.host, string_agg(g.name, ', ' ORDER BY g.name) AS groups FROM hosts h JOIN hosts_groups hg ON hg.hostid = h.hostid"
    " JOIN hstgrp g ON g.groupid = hg.groupid GROUP BY h.host",
    "trigger_share": "SELECT priority, count(*) AS triggers, round(100.0 * count(*) FILTER (WHERE value = 1) / count(*), 1) AS percent_firing FROM triggers WHERE status = 0"
    " GROUP BY priority",
    "failing_alerts": "SELECT coalesce(m.name, 'none') AS media, a.status, count(*) AS alerts, max(a.retries) AS retries, avg(length(a.error)) AS letters FROM alerts a"
    " LEFT JOIN media_type m ON m.mediatypeid = a.mediatypeid WHERE a.status <> 1 GROUP BY coalesce(m.name, 'none'), a.status HAVING count(*) > 1 ORDER BY count(*) DESC, 1, 2"
    " LIMIT 20",
}
FIRST = """
SET session_replication_role = replica;
INSERT INTO hosts (hostid, host, name, status, flags, maintenance_status) SELECT i, 'h' || i, 'Host ' || i, i % 4 % 2, i % 5, i % 2 FROM generate_series(1, 20) AS i;
INSERT INTO items (itemid, hostid, name, status, value_type) SELECT i, 1 + i % 17, 'item ' || i, i % 3 % 2, i % 5 FROM generate_series(1, 90) AS i;
INSERT INTO problem (eventid, source, clock, r_eventid, severity, acknowledged) SELECT i, i % 7 / 6, 1700000000 + i * 5000, nullif(i % 3, 0), i % 6, i % 2
  FROM generate_series(1, 60) AS i;
INSERT INTO events (eventid, source, object, clock, value) SELECT i, i % 5 / 4, 0, 1700000000 + i * 9000, i % 2 FROM generate_series(1, 200) AS i;
INSERT INTO history (itemid, clock, value, ns) SELECT 1 + i % 25, 1700000000 + i / 3, i / 7.0, i % 3 FROM generate_series(1, 300) AS i;
INSERT INTO users (userid, username, name, surname, roleid) SELECT i, 'u' || i, CASE WHEN i > 2 THEN 'N' || i ELSE '' END, '', 1 FROM generate_series(1, 6) AS i;
INSERT INTO sessions (sessionid, userid, lastaccess) SELECT md5(i::text), 1 + i % 4, 1700000000 + i FROM generate_series(1, 30) AS i;
INSERT INTO hstgrp (groupid, name) SELECT i, 'group ' || i FROM generate_series(1, 5) AS i;
INSERT INTO hosts_groups (hostgroupid, hostid, groupid) SELECT i, 1 + i % 15, 1 + (i / 15 + i) % 5 FROM generate_series(1, 40) AS i;
INSERT INTO triggers (triggerid, status, value, priority) SELECT i, i % 4 / 3, i % 5 % 2, i % 6 FROM generate_series(1, 70) AS i;
INSERT INTO media_type (mediatypeid, name) VALUES (1, 'mail'), (2, 'pager');
INSERT INTO alerts (alertid, actionid, eventid, clock, mediatypeid, status, retries, error) SELECT i, 1, 1, 1700000000 + i, nullif(i % 3, 0), i % 3, i % 4, repeat('e', i % 5)
  FROM generate_series(1, 80) AS i;
SET session_replication_role = origin;
"""
DAYS = {
    "states change": """
SET session_replication_role = replica;
UPDATE hosts SET status = 1 - status WHERE hostid % 6 = 1;
DELETE FROM items WHERE itemid % 7 = 2;
UPDATE problem SET r_eventid = 5 WHERE eventid % 4 = 0;
DELETE FROM problem WHERE severity = 5;
INSERT INTO events (eventid, source, object, clock, value) SELECT i, 0, 0, 1700000000 + i * 9000, i % 2 FROM generate_series(201, 260) AS i;
DELETE FROM history WHERE clock % 4 = 1;
INSERT INTO history (itemid, clock, value) VALUES (1, 1800000000, 'NaN'), (2, 1800000000, '-0');
DELETE FROM sessions WHERE userid = 2;
UPDATE hstgrp SET name = 'a group' WHERE groupid = 3;
DELETE FROM hosts_groups WHERE groupid = 1;
UPDATE triggers SET value = 1 WHERE priority = 2;
UPDATE alerts SET mediatypeid = NULL, status = 2 WHERE alertid % 10 = 1;
DELETE FROM media_type WHERE mediatypeid = 2;
SET session_replication_role = origin;
""",
    "ties, NULL and groups that leave": """
SET session_replication_role = replica;
UPDATE history SET clock = 1700000050, ns = 777 WHERE ctid IN (SELECT DISTINCT ON (itemid) ctid FROM history WHERE itemid < 4 ORDER BY itemid, clock DESC, ns DESC);
UPDATE items SET hostid = 3, name = 'item' WHERE itemid % 5 = 0;
DELETE FROM hosts WHERE hostid % 5 = 2;
UPDATE problem SET r_eventid = NULL, clock = 1600000000 WHERE eventid % 8 = 0;
DELETE FROM events WHERE value = 1;
UPDATE users SET name = '', surname = 'S' WHERE userid = 4;
DELETE FROM sessions WHERE userid = 3;
DELETE FROM alerts WHERE status = 2;
UPDATE triggers SET status = 1 WHERE priority IN (0, 1);
SET session_replication_role = origin;
""",
    "all rows leave, and some come again": """
SET session_replication_role = replica;
DELETE FROM alerts; DELETE FROM history; DELETE FROM problem; DELETE FROM sessions; DELETE FROM triggers; DELETE FROM hosts_groups; DELETE FROM events;
INSERT INTO history (itemid, clock, value, ns) VALUES (3, 5, 1.5, 0), (3, 5, 'infinity', 1), (99999, 5, 1, 0);
INSERT INTO alerts (alertid, actionid, eventid, mediatypeid, status, retries, error) VALUES (1, 1, 1, NULL, 0, 1, ''), (2, 1, 1, 1, 0, 2, 'x'), (3, 1, 1, NULL, 0, 0, 'xyz');
INSERT INTO triggers (triggerid, status, value, priority) VALUES (1, 0, 0, 3);
SET session_replication_role = origin;
""",
}
APPLICATION = Application("zabbix-server-pgsql", "usr/share/zabbix-server-pgsql/schema.sql.gz", VIEWS, FIRST, DAYS)
