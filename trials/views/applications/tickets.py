"""Tickets of a help desk, request-tracker5 of the distribution: what its operators want to see, over some queues, tickets, transactions and groups."""

from trials.views.applications.application import Application

VIEWS = {
    "tickets_by_queue": "SELECT q.name AS queue, t.status, count(*) AS tickets, sum(t.timeworked) AS minutes FROM tickets t JOIN queues q ON q.id = t.queue"
    " WHERE t.type = 'ticket' AND t.effectiveid = t.id GROUP BY q.name, t.status",
    "open_by_owner": "SELECT coalesce(u.realname, u.name) AS owner, count(t.id) AS open, min(t.created) AS oldest FROM users u"
    " LEFT JOIN tickets t ON t.owner = u.id AND t.status IN ('new', 'open', 'stalled') GROUP BY u.id",
    "unanswered": "SELECT t.id, t.subject, t.created FROM tickets t WHERE t.status = 'new'"
    " AND NOT EXISTS (SELECT 1 FROM transactions x WHERE x.objecttype = 'RT::Ticket' AND x.objectid = t.id AND x.type = 'Correspond')",
    "last_change": "SELECT DISTINCT ON (x.objectid) x.objectid, x.type, x.field, x.newvalue, x.created FROM transactions x WHERE x.objecttype = 'RT::Ticket'"
    " ORDER BY x.objectid, x.created DESC, x.id DESC",
    "hours_to_resolve": "SELECT date_trunc('month', t.created) AS month, q.name AS queue, count(*) AS resolved, round(avg(extract(epoch FROM t.resolved - t.created) / 3600), 1)"
    " AS hours FROM tickets t JOIN queues q ON q.id = t.queue WHERE t.resolved IS NOT NULL GROUP BY 1, 2",
    "members_of_groups": "SELECT g.name, g.domain, string_agg(u.name, ', ' ORDER BY u.name) AS members FROM groups g JOIN cachedgroupmembers m ON m.groupid = g.id"
    " JOIN users u ON u.id = m.memberid WHERE m.disabled = 0 GROUP BY g.id, g.name, g.domain",
    "priorities": "SELECT v.label, count(t.id) AS tickets, max(t.due) AS last_due FROM (VALUES ('low', 0, 33), ('middle', 34, 66), ('high', 67, 1000)) AS v (label, least, most)"
    " LEFT JOIN tickets t ON t.priority BETWEEN v.least AND v.most AND t.status <> 'deleted' GROUP BY v.label",
}
FIRST = """
INSERT INTO queues (id, name) SELECT i, 'queue ' || i FROM generate_series(1, 5) AS i;
INSERT INTO users (id, name, realname) SELECT i, 'u' || i, CASE WHEN i % 3 > 0 THEN 'User ' || i END FROM generate_series(1, 8) AS i;
INSERT INTO tickets (id, effectiveid, queue, type, owner, subject, priority, timeworked, status, created, resolved, due)
  SELECT i, CASE WHEN i % 11 = 0 THEN i - 1 ELSE i END, 1 + i % 5, 'ticket', 1 + i % 7, 'subject ' || i, i * 7 % 101, i % 13,
    (ARRAY['new', 'open', 'stalled', 'resolved', 'deleted'])[1 + i % 5],
    timestamp '2026-01-01' + i * interval '7 hours', CASE WHEN i % 5 = 3 THEN timestamp '2026-03-01' + i * interval '77 minutes' END,
    CASE WHEN i % 4 = 0 THEN timestamp '2026-05-01' + i * interval '1 day' END FROM generate_series(1, 150) AS i;
INSERT INTO transactions (objecttype, objectid, type, field, newvalue, created)
  SELECT CASE WHEN i % 9 = 0 THEN 'RT::User' ELSE 'RT::Ticket' END, 1 + i % 140, (ARRAY['Create', 'Correspond', 'Status', 'Set'])[1 + i / 7 % 4], 'Status', 'v' || i % 3,
    timestamp '2026-02-01' + i / 2 * interval '1 hour' FROM generate_series(1, 400) AS i;
INSERT INTO groups (id, name, domain) SELECT i, 'group ' || i, 'UserDefined' FROM generate_series(101, 106) AS i;
INSERT INTO cachedgroupmembers (groupid, memberid, disabled) SELECT 101 + i % 5, 1 + i % 8, i % 6 / 5 FROM generate_series(1, 30) AS i;
"""
DAYS = {
    "a day's work": """
UPDATE tickets SET status = 'resolved', resolved = created + interval '3 days' WHERE id % 6 = 1;
UPDATE tickets SET owner = 8, priority = priority + 30 WHERE id % 9 = 2;
INSERT INTO transactions (objecttype, objectid, type, created) SELECT 'RT::Ticket', i, 'Correspond', '2026-06-01' FROM generate_series(5, 60, 5) AS i;
DELETE FROM cachedgroupmembers WHERE memberid = 3;
UPDATE users SET realname = 'Somebody' WHERE id IN (2, 3);
UPDATE queues SET name = 'support' WHERE id = 4;
""",
    "NULL, ties and what leaves": """
UPDATE tickets SET resolved = NULL, status = NULL WHERE id % 10 = 3;
DELETE FROM transactions WHERE type = 'Correspond';
UPDATE transactions SET created = '2026-02-02', newvalue = NULL WHERE objectid < 20;
DELETE FROM tickets WHERE queue = 2;
DELETE FROM groups WHERE id = 102;
UPDATE cachedgroupmembers SET disabled = 1 WHERE groupid = 103;
""",
}
APPLICATION = Application("request-tracker5", "usr/share/request-tracker5/etc/schema.Pg", VIEWS, FIRST, DAYS)
