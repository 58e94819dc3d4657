"""Zones of names, pdns of the distribution: what its operators want to see, over zones, their records, keys and comments."""

from trials.views.applications.application import Application

VIEWS = {
    "zones_by_size": "SELECT d.name, d.type, count(r.id) AS records, count(r.id) FILTER (WHERE r.disabled) AS disabled, count(DISTINCT r.name) AS names FROM domains d"
    " LEFT JOIN records r ON r.domain_id = d.id GROUP BY d.id ORDER BY records DESC, d.name",
    "record_types": "SELECT type, count(*), round(avg(ttl)) AS mean_ttl, min(ttl), max(ttl) FROM records WHERE type IS NOT NULL AND NOT disabled GROUP BY type",
    "serials": "SELECT d.name, split_part(r.content, ' ', 3)::bigint AS serial, d.notified_serial, d.notified_serial IS DISTINCT FROM split_part(r.content, ' ', 3)::bigint AS stale"
    " FROM domains d JOIN records r ON r.domain_id = d.id AND r.type = 'SOA'",
    "without_ns": "SELECT name FROM domains WHERE id NOT IN (SELECT domain_id FROM records WHERE type = 'NS' AND domain_id IS NOT NULL) AND type <> 'SLAVE'",
    "same_address": "SELECT content AS address, count(*) AS n, string_agg(name, ', ' ORDER BY name, id) AS names FROM records WHERE type IN ('A', 'AAAA') GROUP BY content"
    " HAVING count(*) > 1",
    "dangling_aliases": "SELECT c.name, c.content AS target FROM records c WHERE c.type = 'CNAME' AND NOT EXISTS (SELECT FROM records t WHERE t.name = rtrim(c.content, '.'))",
    "last_comments": "SELECT DISTINCT ON (c.domain_id, c.name) d.name AS zone, c.name, c.comment, to_timestamp(c.modified_at)::date AS on_day, c.account FROM comments c"
    " JOIN domains d ON d.id = c.domain_id ORDER BY c.domain_id, c.name, c.modified_at DESC, c.id DESC",
    "signed": "SELECT coalesce(nullif(d.account, ''), 'nobody') AS account, count(*) AS zones, count(*) FILTER (WHERE k.n > 0) AS signed, round(100.0 * count(k.n) / count(*), 1) AS percent"
    " FROM domains d LEFT JOIN (SELECT domain_id, count(*) AS n FROM cryptokeys WHERE active GROUP BY domain_id) k ON k.domain_id = d.id GROUP BY 1",
    "metadata": "SELECT kind, content, count(*) AS zones FROM domainmetadata GROUP BY ROLLUP (kind, content) HAVING count(*) > 1 OR GROUPING(kind) = 1",
    "mail": "WITH mx AS (SELECT domain_id, prio, content, rank() OVER (PARTITION BY domain_id ORDER BY prio, content) AS r FROM records WHERE type = 'MX') SELECT d.name,"
    " mx.content AS first, (SELECT count(*) FROM records t WHERE t.domain_id = d.id AND t.type = 'TXT' AND t.content LIKE '\"v=spf1%') AS spf FROM domains d"
    " LEFT JOIN mx ON mx.domain_id = d.id AND mx.r = 1",
}
FIRST = """
INSERT INTO domains (id, name, type, master, notified_serial, account) SELECT i, 'zone' || i || '.example', (ARRAY['MASTER', 'NATIVE', 'SLAVE'])[1 + i % 3], NULL,
  CASE WHEN i % 4 > 0 THEN 2026030100 + i % 2 END, CASE i % 5 WHEN 0 THEN '' WHEN 1 THEN NULL ELSE 'account ' || i % 3 END FROM generate_series(1, 25) AS i;
INSERT INTO records (id, domain_id, name, type, content, ttl) SELECT i, i, 'zone' || i || '.example', 'SOA', 'ns1.example. root.example. ' || 2026030100 + i % 3 || ' 3600 900 1 1', 3600
  FROM generate_series(1, 22) AS i;
INSERT INTO records (id, domain_id, name, type, content, ttl, prio, disabled) SELECT 100 + i, 1 + i % 25, CASE WHEN i % 11 > 0 THEN 'n' || i % 30 || '.zone' || 1 + i % 25 || '.example' END,
  (ARRAY['A', 'AAAA', 'NS', 'CNAME', 'MX', 'TXT', NULL])[1 + i % 7], CASE i % 7 WHEN 0 THEN '192.0.2.' || i % 9 WHEN 1 THEN '2001:db8::' || i % 4 WHEN 2 THEN 'ns' || i % 2 || '.example.'
  WHEN 3 THEN 'n' || i % 40 || '.zone' || i % 25 || '.example.' WHEN 4 THEN 'mail' || i % 3 || '.example' WHEN 5 THEN '"v=spf1 -all"' END, nullif(i % 4, 0) * 300,
  CASE WHEN i % 7 = 4 THEN i % 3 * 10 END, i % 6 = 0 FROM generate_series(1, 260) AS i;
INSERT INTO comments (id, domain_id, name, type, modified_at, account, comment) SELECT i, 1 + i % 9, 'n' || i % 4, 'A', 1767225600 + i / 3 * 40000, nullif('who ' || i % 3, 'who 0'), 'said ' || i
  FROM generate_series(1, 60) AS i;
INSERT INTO cryptokeys (id, domain_id, flags, active, content) SELECT i, nullif(i % 12, 0), 256 + i % 2, CASE WHEN i % 5 > 0 THEN i % 3 > 0 END, 'key' FROM generate_series(1, 30) AS i;
INSERT INTO domainmetadata (id, domain_id, kind, content) SELECT i, 1 + i % 25, (ARRAY['ALLOW-AXFR-FROM', 'SOA-EDIT', NULL])[1 + i % 3], nullif('m' || i % 4, 'm0') FROM generate_series(1, 40) AS i;
"""
DAYS = {
    "records come, leave and change": """
UPDATE records SET content = 'ns1.example. root.example. 2026030200 3600 900 1 1' WHERE type = 'SOA' AND id % 2 = 0;
UPDATE domains SET notified_serial = 2026030200, account = 'account 9' WHERE id % 6 = 2;
UPDATE records SET disabled = NOT disabled, ttl = ttl + 60 WHERE id % 9 = 1;
UPDATE records SET content = 'n1.zone1.example.', type = 'CNAME' WHERE id % 31 = 5 AND type <> 'SOA';
DELETE FROM records WHERE type = 'NS' AND id % 4 = 1;
DELETE FROM domains WHERE id IN (3, 8);
INSERT INTO comments (id, domain_id, name, type, modified_at, comment) VALUES (100, 1, 'n1', 'A', 1800000000, 'new'), (101, 2, 'n9', 'A', 0, '');
UPDATE cryptokeys SET active = NOT active WHERE id % 3 = 1;
UPDATE domainmetadata SET kind = NULL WHERE id % 5 = 2;
""",
    "NULL and ties": """
UPDATE records SET domain_id = NULL WHERE id % 13 = 2;
UPDATE records SET prio = 0 WHERE type = 'MX';
UPDATE records SET name = NULL, ttl = NULL WHERE id % 17 = 3;
UPDATE comments SET modified_at = 1790000000 WHERE id % 2 = 0;
UPDATE domains SET account = NULL, type = 'NATIVE' WHERE id % 2 = 1;
DELETE FROM cryptokeys WHERE domain_id < 6;
DELETE FROM domainmetadata WHERE content IS NULL;
""",
    "all leave, and some come again": """
DELETE FROM domains; DELETE FROM records;
INSERT INTO domains (id, name, type) VALUES (1, 'again.example', 'MASTER');
INSERT INTO records (id, domain_id, name, type, content) VALUES (1, 1, 'again.example', 'SOA', 'a. b. 7 1 1 1 1'), (2, 1, 'again.example', 'A', '192.0.2.1'), (3, NULL, 'x', 'A', '192.0.2.1');
""",
}
APPLICATION = Application("pdns-backend-pgsql", "usr/share/pdns-backend-pgsql/schema/schema.pgsql.sql", VIEWS, FIRST, DAYS)
