"""A server of messages, ejabberd of the distribution: what its operators want to see, over accounts, rosters, messages, rooms and nodes."""

from trials.views.applications.application import Application

VIEWS = {
    "accounts_by_month": "SELECT date_trunc('month', created_at) AS month, count(*) AS accounts, count(*) FILTER (WHERE serverkey <> '') AS with_keys FROM users"
    " GROUP BY 1",
    "last_seen": "SELECT u.username, to_timestamp(l.seconds::bigint) AS at, coalesce(nullif(l.state, ''), 'gone') AS state FROM users u LEFT JOIN last l ON l.username = u.username",
    "rosters": "SELECT username, count(*) AS contacts, count(*) FILTER (WHERE subscription = 'B') AS both_ways, count(*) FILTER (WHERE ask <> 'N') AS asked FROM rosterusers"
    " GROUP BY username",
    "waiting": "SELECT s.username, count(*) AS messages, min(s.created_at) AS oldest, sum(length(s.xml)) AS letters FROM spool s JOIN users u ON u.username = s.username"
    " GROUP BY s.username HAVING count(*) > 1",
    "talks": "SELECT DISTINCT ON (a.username, a.bare_peer) a.username, a.bare_peer, a.kind, to_timestamp(a.timestamp / 1000000) AS at, a.txt FROM archive a"
    " ORDER BY a.username, a.bare_peer, a.timestamp DESC, a.id DESC",
    "nodes": "SELECT n.host, n.node, count(DISTINCT i.publisher) AS publishers, count(i.itemid) AS items, max(i.modification) AS last FROM pubsub_node n"
    " LEFT JOIN pubsub_item i ON i.nodeid = n.nodeid GROUP BY n.nodeid, n.host, n.node",
    "empty_groups": "SELECT g.name, g.created_at FROM sr_group g WHERE g.name NOT IN (SELECT m.grp FROM sr_user m)",
}
FIRST = """
INSERT INTO users (username, password, serverkey, created_at) SELECT 'u' || i, 'x', CASE WHEN i % 3 = 0 THEN 'k' ELSE '' END, timestamp '2026-01-01' + i * interval '3 days'
  FROM generate_series(1, 40) AS i;
INSERT INTO last (username, seconds, state) SELECT 'u' || i, 1700000000 + i * 1000, CASE WHEN i % 2 = 0 THEN '' ELSE 'away' END FROM generate_series(1, 50, 2) AS i;
INSERT INTO rosterusers (username, jid, nick, subscription, ask, askmessage, server, subscribe)
  SELECT 'u' || i % 13, 'j' || i, '', (ARRAY['B', 'T', 'F', 'N'])[1 + i % 4], (ARRAY['N', 'O'])[1 + i % 2], '', 'N', '' FROM generate_series(1, 90) AS i;
INSERT INTO spool (username, xml, created_at) SELECT 'u' || i % 9, repeat('m', i % 40), timestamp '2026-02-01' + i * interval '1 hour' FROM generate_series(1, 60) AS i;
INSERT INTO archive (username, timestamp, peer, bare_peer, xml, txt, kind)
  SELECT 'u' || i % 7, 1700000000000000 + i / 3 * 1000000::bigint, 'p', 'p' || i % 5, '', nullif('t' || i, 't9'), 'chat' FROM generate_series(1, 150) AS i;
INSERT INTO pubsub_node (host, node, plugin, nodeid) SELECT 'h', 'n' || i, 'flat', i FROM generate_series(1, 12) AS i;
INSERT INTO pubsub_item (nodeid, itemid, publisher, creation, modification) SELECT 1 + i % 10, 'i' || i, 'p' || i % 4, '2026-01-01', '2026-01-' || lpad((1 + i % 28)::text, 2, '0')
  FROM generate_series(1, 50) AS i;
INSERT INTO sr_group (name, opts, created_at) SELECT 'g' || i, '', timestamp '2026-01-01' + i * interval '1 day' FROM generate_series(1, 6) AS i;
INSERT INTO sr_user (jid, grp) SELECT 'j' || i, 'g' || 1 + i % 4 FROM generate_series(1, 9) AS i;
"""
DAYS = {
    "messages come and go": """
DELETE FROM spool WHERE seq % 3 = 0;
INSERT INTO archive (username, timestamp, peer, bare_peer, xml, txt, kind) SELECT 'u' || i, 1800000000000000, 'p', 'p1', '', NULL, 'groupchat' FROM generate_series(1, 9) AS i;
UPDATE last SET seconds = '1800000000', state = 'back' WHERE username < 'u3';
UPDATE rosterusers SET subscription = 'B', ask = 'N' WHERE username = 'u2';
DELETE FROM pubsub_item WHERE publisher = 'p1';
INSERT INTO sr_user (jid, grp) VALUES ('j99', 'g5');
INSERT INTO users (username, password) VALUES ('new', 'x');
""",
    "what leaves": """
DELETE FROM users WHERE username LIKE 'u1%';
DELETE FROM archive WHERE bare_peer = 'p1';
UPDATE archive SET timestamp = 1700000000000000, txt = 'tie' WHERE username = 'u4';
DELETE FROM pubsub_node WHERE nodeid = 3;
DELETE FROM sr_user WHERE grp = 'g2';
DELETE FROM rosterusers WHERE subscription = 'N';
""",
}
APPLICATION = Application("ejabberd", "usr/share/ejabberd/sql/pg.sql", VIEWS, FIRST, DAYS)
