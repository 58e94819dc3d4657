"""Who gets into a network, freeradius of the distribution: what its operators want to see, over sessions, answers, users and groups."""

from trials.views.applications.application import Application

VIEWS = {
    "open_sessions": "SELECT nasipaddress, count(*) AS sessions, min(acctstarttime) AS oldest FROM radacct WHERE acctstoptime IS NULL GROUP BY nasipaddress",
    "traffic": "SELECT username, date_trunc('month', acctstarttime) AS month, sum(acctinputoctets + acctoutputoctets) AS octets, sum(acctsessiontime) AS seconds FROM radacct"
    " GROUP BY 1, 2",
    "refused_users": "SELECT username, count(*) FILTER (WHERE reply = 'Access-Reject') AS refused, count(*) AS asked, max(authdate) AS last FROM radpostauth GROUP BY username"
    " HAVING count(*) FILTER (WHERE reply = 'Access-Reject') > 1",
    "users_without_group": "SELECT DISTINCT c.username FROM radcheck c WHERE NOT EXISTS (SELECT 1 FROM radusergroup g WHERE g.username = c.username)",
    "groups": "SELECT g.groupname, count(DISTINCT g.username) AS users, min(g.priority) AS first, count(r.id) AS attributes FROM radusergroup g"
    " LEFT JOIN radgroupreply r ON r.groupname = g.groupname GROUP BY g.groupname",
    "causes": "SELECT coalesce(acctterminatecause, 'none') AS cause, count(*) AS sessions, round(100.0 * count(*) / sum(count(*)) OVER (), 1) AS percent FROM radacct"
    " GROUP BY 1 ORDER BY 2 DESC, 1",
    "attributes": "SELECT 'check' AS kind, attribute, op, count(*) AS n FROM radcheck GROUP BY attribute, op UNION ALL SELECT 'reply', attribute, op, count(*) FROM radreply"
    " GROUP BY attribute, op UNION ALL SELECT 'group', attribute, op, count(*) FROM radgroupreply GROUP BY attribute, op",
}
FIRST = """
INSERT INTO radacct (acctsessionid, acctuniqueid, username, nasipaddress, acctstarttime, acctstoptime, acctsessiontime, acctinputoctets, acctoutputoctets, acctterminatecause)
  SELECT 's' || i, 'q' || i, nullif('u' || i % 12, 'u5'), ('10.0.0.' || i % 4)::inet, timestamptz '2026-01-01 UTC' + i * interval '9 hours',
    CASE WHEN i % 5 > 0 THEN timestamptz '2026-01-02 UTC' + i * interval '9 hours' END, i * 60, i::bigint * 100000000, nullif(i % 7, 0) * 1000000,
    (ARRAY['User-Request', 'Lost-Carrier', NULL])[1 + i % 3] FROM generate_series(1, 200) AS i;
INSERT INTO radpostauth (username, reply, authdate) SELECT 'u' || i % 15, CASE WHEN i % 4 = 0 THEN 'Access-Reject' ELSE 'Access-Accept' END,
  timestamptz '2026-02-01 UTC' + i * interval '1 hour' FROM generate_series(1, 120) AS i;
INSERT INTO radcheck (username, attribute, op, value) SELECT 'u' || i % 14, (ARRAY['Cleartext-Password', 'Expiration'])[1 + i % 2], ':=', 'x' FROM generate_series(1, 40) AS i;
INSERT INTO radreply (username, attribute, value) SELECT 'u' || i % 6, 'Framed-IP-Address', '10.1.0.' || i FROM generate_series(1, 12) AS i;
INSERT INTO radusergroup (username, groupname, priority) SELECT 'u' || i % 10, 'group ' || i % 3, i FROM generate_series(1, 18) AS i;
INSERT INTO radgroupreply (groupname, attribute, value) SELECT 'group ' || i % 4, (ARRAY['Session-Timeout', 'Idle-Timeout'])[1 + i % 2], '60' FROM generate_series(1, 9) AS i;
"""
DAYS = {
    "sessions end": """
UPDATE radacct SET acctstoptime = '2026-04-01 10:00 UTC', acctterminatecause = 'NAS-Reboot', acctoutputoctets = 7 WHERE acctstoptime IS NULL AND radacctid % 2 = 0;
INSERT INTO radacct (acctsessionid, acctuniqueid, username, nasipaddress, acctstarttime) SELECT 'n' || i, 'n' || i, 'u3', '::1', '2026-04-02 UTC' FROM generate_series(1, 9) AS i;
DELETE FROM radpostauth WHERE username IN ('u1', 'u2');
INSERT INTO radpostauth (username, reply, authdate) VALUES ('u9', 'Access-Reject', '2026-05-01 UTC'), ('u99', 'Access-Reject', '2026-05-01 UTC');
DELETE FROM radusergroup WHERE username = 'u4';
UPDATE radgroupreply SET groupname = 'group 9' WHERE attribute = 'Idle-Timeout';
""",
    "NULL and what leaves": """
UPDATE radacct SET acctinputoctets = NULL, username = NULL WHERE radacctid % 8 = 1;
DELETE FROM radacct WHERE nasipaddress = '10.0.0.2';
DELETE FROM radcheck WHERE attribute = 'Expiration';
DELETE FROM radreply; DELETE FROM radusergroup WHERE groupname = 'group 1';
UPDATE radusergroup SET priority = 0;
""",
}
APPLICATION = Application("freeradius-config", "etc/freeradius/3.0/mods-config/sql/main/postgresql/schema.sql", VIEWS, FIRST, DAYS)
