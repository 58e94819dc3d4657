"""Monitored services, icinga of the distribution: what its operators want to see, over some hosts, services, states and notifications."""

from trials.views.applications.application import Application

VIEWS = {
    "hosts_by_state": "SELECT CASE hs.current_state WHEN 0 THEN 'up' WHEN 1 THEN 'down' ELSE 'unreachable' END AS state, count(*) AS hosts,"
    " count(*) FILTER (WHERE hs.problem_has_been_acknowledged = 1) AS acknowledged, count(*) FILTER (WHERE hs.scheduled_downtime_depth > 0) AS in_downtime"
    " FROM icinga_hosts h JOIN icinga_objects o ON o.object_id = h.host_object_id JOIN icinga_hoststatus hs ON hs.host_object_id = h.host_object_id WHERE o.is_active = 1 GROUP BY 1",
    "service_problems": "SELECT o.name1 AS host, o.name2 AS service, ss.current_state, ss.last_state_change, now() - ss.last_state_change AS since, left(ss.output, 40) AS output"
    " FROM icinga_services s JOIN icinga_objects o ON o.object_id = s.service_object_id JOIN icinga_servicestatus ss ON ss.service_object_id = s.service_object_id"
    " WHERE o.is_active = 1 AND ss.current_state <> 0 AND ss.state_type = 1 ORDER BY ss.current_state DESC, ss.last_state_change",
    "worst_of_groups": "SELECT g.alias, count(DISTINCT m.host_object_id) AS hosts, max(hs.current_state) AS worst, coalesce(sum(CASE WHEN hs.current_state > 0 THEN 1 ELSE 0 END), 0)"
    " AS down FROM icinga_hostgroups g LEFT JOIN icinga_hostgroup_members m ON m.hostgroup_id = g.hostgroup_id LEFT JOIN icinga_hoststatus hs"
    " ON hs.host_object_id = m.host_object_id GROUP BY g.hostgroup_id, g.alias",
    "last_change": "SELECT DISTINCT ON (sh.object_id) sh.object_id, o.name1, o.name2, sh.state, sh.state_time, sh.output FROM icinga_statehistory sh JOIN icinga_objects o USING (object_id)"
    " ORDER BY sh.object_id, sh.state_time DESC, sh.state_time_usec DESC, sh.statehistory_id DESC",
    "unanswered_problems": "SELECT o.name1, o.name2, ss.current_state, ss.last_state_change FROM icinga_servicestatus ss JOIN icinga_objects o ON o.object_id = ss.service_object_id"
    " WHERE ss.current_state > 0 AND NOT EXISTS (SELECT 1 FROM icinga_acknowledgements a WHERE a.object_id = ss.service_object_id AND a.entry_time >= ss.last_state_change)"
    " AND ss.service_object_id NOT IN (SELECT d.object_id FROM icinga_scheduleddowntime d WHERE d.is_in_effect = 1)",
    "mails_by_contact": "SELECT c.alias, n.start_time::date AS day, count(*) AS mails, count(*) FILTER (WHERE n.state > 0) AS problems, count(DISTINCT n.object_id) AS objects"
    " FROM icinga_contactnotifications cn JOIN icinga_notifications n ON n.notification_id = cn.notification_id JOIN icinga_contacts c ON c.contact_object_id = cn.contact_object_id"
    " GROUP BY c.alias, n.start_time::date ORDER BY day DESC, mails DESC",
    "changes_by_day": "SELECT day, changes, round(avg(changes) OVER (ORDER BY day ROWS BETWEEN 6 PRECEDING AND CURRENT ROW), 2) AS mean_of_week, sum(changes) OVER (ORDER BY day) AS so_far"
    " FROM (SELECT state_time::date AS day, count(*) AS changes FROM icinga_statehistory WHERE state_type = 1 GROUP BY state_time::date) AS days",
    "downtime_by_host": "SELECT coalesce(o.name1, 'unknown') AS host, count(*) AS downtimes, sum(d.actual_end_time - d.actual_start_time) AS total,"
    " round(sum(extract(epoch FROM d.actual_end_time - d.actual_start_time)) / 3600, 1) AS hours FROM icinga_downtimehistory d LEFT JOIN icinga_objects o ON o.object_id = d.object_id"
    " WHERE d.was_started = 1 AND d.was_cancelled = 0 GROUP BY coalesce(o.name1, 'unknown')",
    "variables_of_hosts": "SELECT o.name1 AS host, max(v.varvalue) FILTER (WHERE v.varname = 'os') AS os, max(CASE WHEN v.varname = 'site' THEN v.varvalue END) AS site,"
    " bool_or(v.varname = 'critical' AND v.varvalue = '1') AS is_critical FROM icinga_objects o JOIN icinga_customvariables v ON v.object_id = o.object_id"
    " WHERE o.objecttype_id = 1 AND o.is_active = 1 GROUP BY o.object_id, o.name1",
    "timeline": "SELECT 'comment' AS kind, c.entry_time AS at, c.author_name AS who, o.name1 AS host, c.comment_data AS said FROM icinga_comments c JOIN icinga_objects o"
    " ON o.object_id = c.object_id UNION ALL SELECT 'answer', a.entry_time, a.author_name, o.name1, a.comment_data FROM icinga_acknowledgements a JOIN icinga_objects o"
    " ON o.object_id = a.object_id UNION ALL SELECT 'downtime', d.entry_time, d.author_name, o.name1, d.comment_data FROM icinga_downtimehistory d JOIN icinga_objects o"
    " ON o.object_id = d.object_id ORDER BY 2 DESC NULLS LAST, 1, 3, 4, 5 LIMIT 40",
}
FIRST = """
INSERT INTO icinga_objects (object_id, objecttype_id, name1, name2, is_active) SELECT i, 1, 'host' || i, NULL, i % 8 / 7 # 1 FROM generate_series(1, 20) AS i;
INSERT INTO icinga_objects (object_id, objecttype_id, name1, name2, is_active) SELECT 100 + i, 2, 'host' || 1 + i % 20, 'service' || i % 4, 1 FROM generate_series(1, 60) AS i;
INSERT INTO icinga_hosts (host_id, host_object_id, alias) SELECT i, i, 'Host ' || i FROM generate_series(1, 20) AS i;
INSERT INTO icinga_hoststatus (hoststatus_id, host_object_id, current_state, problem_has_been_acknowledged, scheduled_downtime_depth, latency)
  SELECT i, i, i % 3, i % 2, i % 5 / 4, i / 7.0 FROM generate_series(1, 18) AS i;
INSERT INTO icinga_services (service_id, host_object_id, service_object_id) SELECT i, 1 + i % 20, 100 + i FROM generate_series(1, 60) AS i;
INSERT INTO icinga_servicestatus (servicestatus_id, service_object_id, current_state, state_type, last_state_change, output)
  SELECT i, 100 + i, i % 4, i % 3 / 2 # 1, CASE WHEN i % 10 <> 0 THEN timestamp '2026-02-01' + (i / 2) * interval '5 hours' END, 'said ' || repeat('o', i % 50) FROM generate_series(1, 60) AS i;
INSERT INTO icinga_hostgroups (hostgroup_id, hostgroup_object_id, alias) SELECT i, 300 + i, CASE WHEN i % 2 = 0 THEN 'same' ELSE 'group ' || i END FROM generate_series(1, 5) AS i;
INSERT INTO icinga_hostgroup_members (hostgroup_id, host_object_id) SELECT 1 + i % 4, 1 + i * 3 % 22 FROM generate_series(1, 40) AS i;
INSERT INTO icinga_statehistory (statehistory_id, object_id, state_time, state_time_usec, state, state_type, output)
  SELECT i, CASE WHEN i % 2 = 0 THEN 1 + i % 20 ELSE 101 + i % 50 END, timestamp '2026-02-01' + (i / 4) * interval '3 hours', i % 2, i % 4, i % 3 % 2, 'state ' || i % 9
  FROM generate_series(1, 400) AS i;
INSERT INTO icinga_acknowledgements (acknowledgement_id, object_id, entry_time, author_name, comment_data)
  SELECT i, 100 + i * 3, timestamp '2026-02-03' + i * interval '11 hours', CASE WHEN i % 3 = 0 THEN NULL ELSE 'ops' || i % 2 END, 'seen' FROM generate_series(1, 15) AS i;
INSERT INTO icinga_scheduleddowntime (scheduleddowntime_id, object_id, is_in_effect) SELECT i, 100 + i * 7, i % 2 FROM generate_series(1, 6) AS i;
INSERT INTO icinga_contacts (contact_id, contact_object_id, alias) SELECT i, 400 + i, 'Person ' || i % 3 FROM generate_series(1, 4) AS i;
INSERT INTO icinga_notifications (notification_id, object_id, start_time, start_time_usec, state) SELECT i, 1 + i % 20, timestamp '2026-02-01' + i * interval '7 hours', i, i % 3
  FROM generate_series(1, 90) AS i;
INSERT INTO icinga_contactnotifications (contactnotification_id, notification_id, contact_object_id, start_time, start_time_usec)
  SELECT i, 1 + i % 90, 401 + i % 5, timestamp '2026-02-01', i FROM generate_series(1, 150) AS i;
INSERT INTO icinga_downtimehistory (downtimehistory_id, object_id, was_started, was_cancelled, actual_start_time, actual_end_time, entry_time, author_name)
  SELECT i, 1 + i % 25, i % 4 / 3 # 1, i % 9 / 8, timestamp '2026-02-01' + i * interval '1 day', CASE WHEN i % 5 <> 0 THEN timestamp '2026-02-01 04:00' + i * interval '25 hours 3.5 seconds' END,
  timestamp '2026-02-01' + i / 2 * interval '1 day', 'ops' FROM generate_series(1, 40) AS i;
INSERT INTO icinga_customvariables (object_id, varname, varvalue) SELECT 1 + i % 20, (ARRAY['os', 'site', 'critical', 'owner'])[1 + i / 20], 'v' || i % 3 FROM generate_series(0, 79) AS i;
UPDATE icinga_customvariables SET varvalue = object_id % 2 WHERE varname = 'critical';
INSERT INTO icinga_comments (comment_id, object_id, entry_time, author_name, comment_data)
  SELECT i, 1 + i % 24, CASE WHEN i % 6 <> 0 THEN timestamp '2026-02-05' + i / 2 * interval '1 day' END, 'ops' || i % 2, E'a \\\\N' FROM generate_series(1, 30) AS i;
"""
DAYS = {
    "states change": """
UPDATE icinga_hoststatus SET current_state = (current_state + 1) % 3 WHERE hoststatus_id % 3 = 0;
UPDATE icinga_servicestatus SET current_state = 0, last_state_change = '2026-03-01' WHERE servicestatus_id % 4 = 1;
UPDATE icinga_servicestatus SET current_state = 2, state_type = 1, last_state_change = '2026-03-02' WHERE servicestatus_id % 10 = 3;
INSERT INTO icinga_statehistory (statehistory_id, object_id, state_time, state, state_type, output)
  SELECT i, 1 + i % 30, timestamp '2026-03-01' + i % 5 * interval '1 day', i % 4, 1, 'new' FROM generate_series(501, 560) AS i;
DELETE FROM icinga_statehistory WHERE state_time < '2026-02-10';
INSERT INTO icinga_acknowledgements (acknowledgement_id, object_id, entry_time, author_name) VALUES (101, 103, '2026-03-03', 'ops1'), (102, 113, '2026-03-01', NULL), (103, NULL, NULL, NULL);
DELETE FROM icinga_hostgroup_members WHERE hostgroup_id = 3;
DELETE FROM icinga_contactnotifications WHERE contactnotification_id % 4 = 1;
UPDATE icinga_customvariables SET varvalue = NULL WHERE varname = 'os' AND object_id % 3 = 0;
""",
    "objects leave, and NULL comes": """
UPDATE icinga_objects SET is_active = 0 WHERE object_id % 6 = 1;
DELETE FROM icinga_objects WHERE object_id IN (4, 104, 105);
INSERT INTO icinga_scheduleddowntime (scheduleddowntime_id, object_id, is_in_effect) VALUES (90, NULL, 1);
UPDATE icinga_notifications SET start_time = NULL, state = NULL WHERE notification_id % 9 = 0;
UPDATE icinga_downtimehistory SET actual_end_time = NULL WHERE object_id = 6;
UPDATE icinga_downtimehistory SET actual_start_time = 'infinity', actual_end_time = '2026-05-05' WHERE downtimehistory_id = 900;
DELETE FROM icinga_hoststatus WHERE current_state = 2;
DELETE FROM icinga_contacts WHERE alias = 'Person 1';
UPDATE icinga_statehistory SET state_time = NULL WHERE statehistory_id % 50 = 0;
UPDATE icinga_hostgroups SET alias = NULL WHERE hostgroup_id = 2;
""",
    "all rows leave": "DELETE FROM icinga_scheduleddowntime; DELETE FROM icinga_hoststatus; TRUNCATE icinga_statehistory; DELETE FROM icinga_comments; DELETE FROM icinga_downtimehistory;"
    " DELETE FROM icinga_hostgroup_members; DELETE FROM icinga_customvariables; DELETE FROM icinga_notifications; DELETE FROM icinga_acknowledgements;",
    "some come again": """
INSERT INTO icinga_hoststatus (hoststatus_id, host_object_id, current_state) VALUES (1, 2, NULL), (2, 3, 1), (3, 99, 0);
INSERT INTO icinga_statehistory (statehistory_id, object_id, state_time, state, state_type) VALUES (1, 2, NULL, 1, 1), (2, 2, '2026-04-01', 0, 1), (3, 2, '2026-04-01', 2, NULL);
INSERT INTO icinga_hostgroup_members (hostgroup_id, host_object_id) VALUES (1, 2), (1, 2), (1, NULL), (NULL, 3);
INSERT INTO icinga_customvariables (object_id, varname, varvalue) VALUES (2, 'os', ''), (3, 'site', E'\\\\N'), (3, 'critical', NULL);
INSERT INTO icinga_comments (comment_id, object_id, entry_time) VALUES (1, 2, NULL), (2, 2, NULL);
INSERT INTO icinga_downtimehistory (downtimehistory_id, object_id, was_started, was_cancelled, actual_start_time, actual_end_time) VALUES (1, 2, 1, 0, '2026-01-01', '2026-01-01');
""",
}
APPLICATION = Application("icinga2-ido-pgsql", "usr/share/icinga2-ido-pgsql/schema/pgsql.sql", VIEWS, FIRST, DAYS)
