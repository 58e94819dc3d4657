"""Rows of public applications, by the number {many} of those in the largest table, and what changes one in a hundred of them: half come, a quarter change and a
quarter leave."""

HOSTS = """
SET session_replication_role = replica;
INSERT INTO hosts (hostid, host, name, status, flags, maintenance_status) SELECT i, 'h' || i, 'Host ' || i, i % 9 / 8, i % 5, i % 2 FROM generate_series(1, {many} / 200) AS i;
INSERT INTO items (itemid, hostid, name, status, value_type) SELECT i, 1 + i % ({many} / 200), 'item ' || i, i % 10 / 9, i % 5 FROM generate_series(1, {many} / 10) AS i;
INSERT INTO problem (eventid, source, clock, r_eventid, severity, acknowledged) SELECT i, i % 7 / 6, 1700000000 + i * 50, nullif(i % 3, 0), i % 6, i % 2
  FROM generate_series(1, {many} / 10) AS i;
INSERT INTO events (eventid, source, object, clock, value) SELECT i, i % 5 / 4, 0, 1700000000 + i * 60, i % 2 FROM generate_series(1, {many}) AS i;
INSERT INTO history (itemid, clock, value, ns) SELECT 1 + i % ({many} / 10), 1700000000 + i, i / 7.0, i % 3 FROM generate_series(1, {many}) AS i;
INSERT INTO users (userid, username, name, surname, roleid) SELECT i, 'u' || i, 'N' || i, '', 1 FROM generate_series(1, 50) AS i;
INSERT INTO sessions (sessionid, userid, lastaccess) SELECT md5(i::text), 1 + i % 50, 1700000000 + i FROM generate_series(1, {many} / 20) AS i;
INSERT INTO hstgrp (groupid, name) SELECT i, 'group ' || i FROM generate_series(1, 40) AS i;
INSERT INTO hosts_groups (hostgroupid, hostid, groupid) SELECT i, 1 + i % ({many} / 200), 1 + (i * 7 + i / ({many} / 200)) % 40 FROM generate_series(1, {many} / 100) AS i;
INSERT INTO triggers (triggerid, status, value, priority) SELECT i, i % 4 / 3, i % 5 % 2, i % 6 FROM generate_series(1, {many} / 10) AS i;
INSERT INTO media_type (mediatypeid, name) VALUES (1, 'mail'), (2, 'pager');
INSERT INTO alerts (alertid, actionid, eventid, clock, mediatypeid, status, retries, error) SELECT i, 1, 1, 1700000000 + i, nullif(i % 3, 0), i % 3, i % 4, repeat('e', i % 50)
  FROM generate_series(1, {many} / 4) AS i;
SET session_replication_role = origin;
"""
HOSTS_CHANGE = """
SET session_replication_role = replica;
INSERT INTO events (eventid, source, object, clock, value) SELECT {many} * {night} + i, 0, 0, 1800000000 + i * 60, i % 2 FROM generate_series(1, {many} / 200) AS i;
DELETE FROM events WHERE eventid IN (SELECT eventid FROM events ORDER BY eventid LIMIT {many} / 400);
UPDATE events SET value = 1 - value WHERE eventid IN (SELECT eventid FROM events ORDER BY eventid DESC LIMIT {many} / 400);
INSERT INTO history (itemid, clock, value, ns) SELECT 1 + i * 7 % ({many} / 10), 1800000000 + {night}, i / 7.0, i % 3 FROM generate_series(1, {many} / 200) AS i;
DELETE FROM history WHERE clock < 1700000000 + {night} * {many} / 200;
UPDATE problem SET r_eventid = 7 WHERE eventid % 200 = {night};
DELETE FROM problem WHERE eventid % 200 = 100 + {night};
UPDATE items SET status = 1 - status WHERE itemid % 100 = {night};
UPDATE triggers SET value = 1 - value WHERE triggerid % 100 = {night};
UPDATE sessions SET lastaccess = 1800000000 + {night} WHERE userid = {night};
INSERT INTO alerts (alertid, actionid, eventid, clock, mediatypeid, status, retries, error) SELECT {many} * {night} + i, 1, 1, 1800000000, nullif(i % 3, 0), i % 3, i % 4, ''
  FROM generate_series(1, {many} / 800) AS i;
DELETE FROM alerts WHERE alertid IN (SELECT alertid FROM alerts ORDER BY alertid LIMIT {many} / 800);
SET session_replication_role = origin;
"""
FEEDS = """
INSERT INTO ttrss_users (id, login, pwd_hash) SELECT i, 'user' || i, 'x' FROM generate_series(11, 60) AS i;
INSERT INTO ttrss_feed_categories (id, owner_uid, title) SELECT i, 11 + i % 50, 'Category ' || i % 20 FROM generate_series(1, 200) AS i;
INSERT INTO ttrss_feeds (id, owner_uid, title, cat_id, feed_url, last_updated, last_error, update_interval)
  SELECT 100 + i, 11 + i % 50, 'Feed ' || i, nullif(i % 200, 0), 'http://feed/' || i, timestamp '2026-01-01' + i * interval '5 minutes', CASE WHEN i % 9 = 0 THEN 'timeout' ELSE '' END, i % 3 - 1
  FROM generate_series(1, {many} / 100) AS i;
INSERT INTO ttrss_entries (id, title, guid, link, updated, content, content_hash, date_entered, date_updated, num_comments, lang)
  SELECT i, 'Article ' || i, 'guid' || i, 'http://a/' || i, timestamp '2026-01-01' + i * interval '3 minutes', repeat('c', i % 300), 'h', timestamp '2026-01-01' + i * interval '2 minutes',
  timestamp '2026-01-02', i % 4, CASE i % 3 WHEN 0 THEN 'en' WHEN 1 THEN 'de' END FROM generate_series(1, {many} / 2) AS i;
INSERT INTO ttrss_user_entries (int_id, ref_id, uuid, feed_id, owner_uid, marked, tag_cache, label_cache, last_read, score, unread)
  SELECT i, 1 + i % ({many} / 2), '', 101 + i % ({many} / 100), 11 + i % 50, i % 90 = 0, '', '', CASE WHEN i % 3 = 0 THEN timestamp '2026-02-01' + i * interval '1 minute' END, i % 5 - 2, i % 3 <> 0
  FROM generate_series(1, {many}) AS i;
INSERT INTO ttrss_labels2 (id, owner_uid, caption) SELECT i, 11, 'label ' || i FROM generate_series(1, 40) AS i;
INSERT INTO ttrss_user_labels2 (label_id, article_id) SELECT 1 + i % 40, 1 + i * 3 % ({many} / 2) FROM generate_series(1, {many} / 20) AS i;
INSERT INTO ttrss_tags (id, tag_name, owner_uid, post_int_id) SELECT i, 'tag' || i % 800, 11 + i % 50, 1 + i * 7 % {many} FROM generate_series(1, {many} / 4) AS i;
INSERT INTO ttrss_enclosures (id, content_url, content_type, title, duration, post_id)
  SELECT i, 'http://f/' || i, CASE WHEN i % 2 = 0 THEN 'audio/mpeg' ELSE 'image/png' END, '', '', 1 + i % ({many} / 2) FROM generate_series(1, {many} / 10) AS i;
"""
FEEDS_CHANGE = """
INSERT INTO ttrss_entries (id, title, guid, link, updated, content, content_hash, date_entered, date_updated)
  SELECT {many} * {night} + i, 'New ' || i, 'guid ' || {many} * {night} + i, '', timestamp '2027-04-01' + i * interval '1 second', '', '', '2027-04-01', '2027-04-01' FROM generate_series(1, {many} / 400) AS i;
INSERT INTO ttrss_user_entries (int_id, ref_id, uuid, feed_id, owner_uid, tag_cache, label_cache)
  SELECT {many} * {night} + i, {many} * {night} + 1 + i % ({many} / 400), '', 101 + i % ({many} / 100), 11 + i % 50, '', '' FROM generate_series(1, {many} / 200) AS i;
UPDATE ttrss_user_entries SET unread = NOT unread, last_read = '2027-03-01' WHERE int_id % 400 = {night};
DELETE FROM ttrss_user_entries WHERE int_id % 400 = 100 + {night};
DELETE FROM ttrss_entries WHERE id % 400 = 200 + {night};
UPDATE ttrss_entries SET num_comments = num_comments + 1 WHERE id % 400 = {night};
UPDATE ttrss_feeds SET last_error = 'gone' WHERE id % 100 = {night};
DELETE FROM ttrss_tags WHERE id % 200 = {night};
INSERT INTO ttrss_tags (id, tag_name, owner_uid, post_int_id) SELECT {many} * {night} + i, 'tag' || i % 800, 11, int_id FROM (SELECT int_id, row_number() OVER () AS i FROM ttrss_user_entries
  LIMIT {many} / 800) AS e;
"""
BACKUPS = """
INSERT INTO client (clientid, name, uname) SELECT i, 'host' || i || '-fd', '9.6 linux' FROM generate_series(1, {many} / 1000) AS i;
INSERT INTO pool (poolid, name, maxvols, labelformat, pooltype) SELECT i, 'Pool' || i, i * 10, 'V', 'Backup' FROM generate_series(1, 20) AS i;
INSERT INTO job (jobid, job, name, type, level, clientid, jobstatus, starttime, endtime, jobfiles, jobbytes, poolid)
  SELECT i, 'job.' || i, 'Backup' || i % 90, CASE WHEN i % 11 = 0 THEN 'R' ELSE 'B' END, CASE WHEN i % 6 = 0 THEN 'F' ELSE 'I' END, 1 + i % ({many} / 1000),
  CASE i % 17 WHEN 0 THEN 'f' WHEN 1 THEN 'E' ELSE 'T' END, timestamp '2026-01-01' + i * interval '19 minutes', timestamp '2026-01-01' + i * interval '20 minutes', i % 10,
  i::bigint * 123456, 1 + i % 20 FROM generate_series(1, {many} / 4) AS i;
INSERT INTO media (mediaid, volumename, poolid, mediatype, volstatus, volbytes, lastwritten, volretention, recycle)
  SELECT i, 'Vol' || i, 1 + i % 20, 'File', (ARRAY['Full', 'Used', 'Append', 'Error'])[1 + i % 4], i::bigint * 1000000007, timestamp '2026-01-10' + i * interval '1 hour', 86400 * (i % 5), i % 2
  FROM generate_series(1, {many} / 40) AS i;
INSERT INTO path (pathid, path) SELECT i, '/srv/' || i || '/' FROM generate_series(1, {many} / 20) AS i;
INSERT INTO file (fileid, jobid, pathid, filenameid, lstat, md5) SELECT i, 1 + i * 7 % ({many} / 4), 1 + i * 13 % ({many} / 20), i % 40, 'x', 'y' FROM generate_series(1, {many}) AS i;
INSERT INTO log (logid, jobid, time, logtext) SELECT i, 1 + i % ({many} / 4), timestamp '2026-01-01' + i * interval '1 minute',
  CASE i % 4 WHEN 0 THEN 'Error: ' || i ELSE 'ok' END FROM generate_series(1, {many} / 2) AS i;
"""
BACKUPS_CHANGE = """
INSERT INTO job (jobid, job, name, type, level, clientid, jobstatus, starttime, endtime, jobfiles, jobbytes)
  SELECT {many} * {night} + i, 'job.' || i, 'Backup' || i % 90, 'B', 'I', 1 + i % ({many} / 1000), 'T', timestamp '2027-01-01' + i * interval '1 minute', timestamp '2027-01-01' + i * interval '2 minutes', i, i
  FROM generate_series(1, {many} / 800) AS i;
INSERT INTO file (fileid, jobid, pathid, filenameid, lstat, md5) SELECT {many} * {night} + i, {many} * {night} + 1 + i % ({many} / 800), 1 + i * 13 % ({many} / 20), i % 40, 'x', 'y'
  FROM generate_series(1, {many} / 200) AS i;
INSERT INTO log (logid, jobid, time, logtext) SELECT {many} * {night} + i, {many} * {night} + 1 + i % ({many} / 800), '2027-01-01', 'ok' FROM generate_series(1, {many} / 400) AS i;
DELETE FROM file WHERE fileid % 400 = {night};
UPDATE file SET pathid = 1 + pathid * 3 % ({many} / 20) WHERE fileid % 400 = 100 + {night};
DELETE FROM job WHERE jobid % 400 = {night};
UPDATE job SET jobstatus = 'T', jobbytes = jobbytes + 5 WHERE jobid % 400 = 100 + {night};
DELETE FROM log WHERE logid % 200 = {night};
UPDATE media SET volstatus = 'Used', volbytes = volbytes + 7, lastwritten = '2027-01-01' WHERE mediaid % 100 = {night};
"""
SERVICES = """
INSERT INTO icinga_objects (object_id, objecttype_id, name1, name2, is_active) SELECT i, 1, 'host' || i, NULL, 1 FROM generate_series(1, {many} / 200) AS i;
INSERT INTO icinga_objects (object_id, objecttype_id, name1, name2, is_active) SELECT {many} + i, 2, 'host' || 1 + i % ({many} / 200), 'service' || i % 20, 1 FROM generate_series(1, {many} / 10) AS i;
INSERT INTO icinga_hosts (host_id, host_object_id, alias) SELECT i, i, 'Host ' || i FROM generate_series(1, {many} / 200) AS i;
INSERT INTO icinga_hoststatus (hoststatus_id, host_object_id, current_state, problem_has_been_acknowledged, scheduled_downtime_depth)
  SELECT i, i, i % 30 / 28, i % 2, i % 5 / 4 FROM generate_series(1, {many} / 200) AS i;
INSERT INTO icinga_services (service_id, host_object_id, service_object_id) SELECT i, 1 + i % ({many} / 200), {many} + i FROM generate_series(1, {many} / 10) AS i;
INSERT INTO icinga_servicestatus (servicestatus_id, service_object_id, current_state, state_type, last_state_change, output)
  SELECT i, {many} + i, i % 40 / 36, 1, timestamp '2026-02-01' + i * interval '5 minutes', 'said ' || repeat('o', i % 50) FROM generate_series(1, {many} / 10) AS i;
INSERT INTO icinga_hostgroups (hostgroup_id, hostgroup_object_id, alias) SELECT i, 300 + i, 'group ' || i FROM generate_series(1, 40) AS i;
INSERT INTO icinga_hostgroup_members (hostgroup_id, host_object_id) SELECT 1 + i % 40, 1 + i * 3 % ({many} / 200) FROM generate_series(1, {many} / 100) AS i;
INSERT INTO icinga_statehistory (statehistory_id, object_id, state_time, state_time_usec, state, state_type, output)
  SELECT i, {many} + 1 + i % ({many} / 10), timestamp '2026-02-01' + i * interval '1 minute', i % 2, i % 4, i % 3 % 2, 'state ' || i % 9 FROM generate_series(1, {many}) AS i;
INSERT INTO icinga_acknowledgements (acknowledgement_id, object_id, entry_time, author_name, comment_data)
  SELECT i, {many} + i % ({many} / 10), timestamp '2026-02-03' + i * interval '11 minutes', 'ops' || i % 9, 'seen' FROM generate_series(1, {many} / 20) AS i;
INSERT INTO icinga_scheduleddowntime (scheduleddowntime_id, object_id, is_in_effect) SELECT i, {many} + i * 7, i % 2 FROM generate_series(1, {many} / 1000) AS i;
INSERT INTO icinga_contacts (contact_id, contact_object_id, alias) SELECT i, 400 + i, 'Person ' || i FROM generate_series(1, 40) AS i;
INSERT INTO icinga_notifications (notification_id, object_id, start_time, start_time_usec, state) SELECT i, 1 + i % ({many} / 200), timestamp '2026-02-01' + i * interval '7 minutes', i, i % 3
  FROM generate_series(1, {many} / 4) AS i;
INSERT INTO icinga_contactnotifications (contactnotification_id, notification_id, contact_object_id, start_time, start_time_usec)
  SELECT i, 1 + i % ({many} / 4), 401 + i % 40, timestamp '2026-02-01', i FROM generate_series(1, {many} / 2) AS i;
INSERT INTO icinga_downtimehistory (downtimehistory_id, object_id, was_started, was_cancelled, actual_start_time, actual_end_time, entry_time, author_name)
  SELECT i, 1 + i % ({many} / 200), i % 4 / 3 # 1, i % 9 / 8, timestamp '2026-02-01' + i * interval '1 hour', timestamp '2026-02-01 04:00' + i * interval '1 hour 3.5 seconds',
  timestamp '2026-02-01' + i * interval '1 hour', 'ops' FROM generate_series(1, {many} / 20) AS i;
INSERT INTO icinga_customvariables (object_id, varname, varvalue) SELECT 1 + i % ({many} / 200), (ARRAY['os', 'site', 'critical', 'owner'])[1 + i / ({many} / 200)], 'v' || i % 3
  FROM generate_series(0, {many} / 50 - 1) AS i;
INSERT INTO icinga_comments (comment_id, object_id, entry_time, author_name, comment_data)
  SELECT i, 1 + i % ({many} / 200), timestamp '2026-02-05' + i * interval '1 hour', 'ops' || i % 2, 'said' FROM generate_series(1, {many} / 20) AS i;
"""
SERVICES_CHANGE = """
INSERT INTO icinga_statehistory (statehistory_id, object_id, state_time, state_time_usec, state, state_type, output)
  SELECT {many} * {night} + i, {many} + 1 + i * 3 % ({many} / 10), timestamp '2027-01-01' + {night} * interval '1 day' + i * interval '1 second', 0, i % 4, i % 2, 'new'
  FROM generate_series(1, {many} / 200) AS i;
DELETE FROM icinga_statehistory WHERE statehistory_id % 400 = {night};
UPDATE icinga_statehistory SET state = (state + 1) % 4 WHERE statehistory_id % 400 = 100 + {night};
UPDATE icinga_servicestatus SET current_state = 1 - current_state % 2, last_state_change = '2027-01-01' WHERE servicestatus_id % 100 = {night};
UPDATE icinga_hoststatus SET current_state = 1 - current_state % 2 WHERE hoststatus_id % 100 = {night};
INSERT INTO icinga_notifications (notification_id, object_id, start_time, start_time_usec, state) SELECT {many} * {night} + i, 1 + i % ({many} / 200), '2027-01-01', {many} * {night} + i, i % 3
  FROM generate_series(1, {many} / 800) AS i;
INSERT INTO icinga_contactnotifications (contactnotification_id, notification_id, contact_object_id, start_time, start_time_usec)
  SELECT {many} * {night} + i, {many} * {night} + 1 + i % ({many} / 800), 401 + i % 40, '2027-01-01', {many} * {night} + i FROM generate_series(1, {many} / 400) AS i;
DELETE FROM icinga_contactnotifications WHERE contactnotification_id % 200 = {night};
INSERT INTO icinga_acknowledgements (acknowledgement_id, object_id, entry_time, author_name) SELECT {many} * {night} + i, {many} + i * 7, '2027-01-01', 'ops' FROM generate_series(1, {many} / 2000) AS i;
UPDATE icinga_downtimehistory SET actual_end_time = actual_end_time + interval '1 hour' WHERE downtimehistory_id % 100 = {night};
UPDATE icinga_customvariables SET varvalue = 'w' WHERE object_id % 100 = {night};
DELETE FROM icinga_comments WHERE comment_id % 100 = {night};
"""
# The rows and the changes of each package's application.
ROWS = {
    "zabbix-server-pgsql": (HOSTS, HOSTS_CHANGE), "tt-rss": (FEEDS, FEEDS_CHANGE), "bacula-director-pgsql": (BACKUPS, BACKUPS_CHANGE), "icinga2-ido-pgsql": (SERVICES, SERVICES_CHANGE),
}
