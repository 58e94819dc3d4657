"""Backups, bacula of the distribution: what its operators want to see, over some clients, jobs, volumes and files."""

from trials.views.applications.application import Application

VIEWS = {
    "jobs_by_client": "SELECT c.name AS client, j.level, coalesce(s.jobstatuslong, 'status ' || j.jobstatus) AS state, count(*) AS jobs, sum(j.jobfiles) AS files,"
    " pg_size_pretty(sum(j.jobbytes)) AS size FROM job j JOIN client c ON c.clientid = j.clientid LEFT JOIN status s ON s.jobstatus = j.jobstatus WHERE j.type = 'B'"
    " GROUP BY c.name, j.level, coalesce(s.jobstatuslong, 'status ' || j.jobstatus)",
    "bytes_by_day": "SELECT endtime::date AS day, count(*) AS jobs, sum(jobbytes) AS bytes, round(sum(jobbytes) / 1073741824.0, 2) AS gigabytes,"
    " avg(extract(epoch FROM endtime - starttime)) AS mean_seconds FROM job WHERE type = 'B' AND jobstatus IN ('T', 'W') GROUP BY 1 ORDER BY 1 DESC",
    "last_good_backup": "SELECT DISTINCT ON (c.name) c.name, j.jobid, j.name AS job, j.level, j.endtime, age(j.endtime, j.starttime) AS took FROM client c"
    " LEFT JOIN job j ON j.clientid = c.clientid AND j.type = 'B' AND j.jobstatus = 'T' ORDER BY c.name, j.endtime DESC NULLS LAST, j.jobid DESC",
    "clients_without_full": "SELECT c.clientid, c.name, c.uname FROM client c WHERE NOT EXISTS (SELECT 1 FROM job j WHERE j.clientid = c.clientid AND j.level = 'F'"
    " AND j.jobstatus = 'T' AND j.endtime > now() - interval '300 days')",
    "pool_usage": "SELECT p.name, count(m.mediaid) AS volumes, count(*) FILTER (WHERE m.volstatus = 'Full') AS full_ones, coalesce(sum(m.volbytes), 0) AS bytes,"
    " max(m.lastwritten) AS last_written, round(100.0 * count(m.mediaid) / nullif(p.maxvols, 0), 1) AS percent FROM pool p LEFT JOIN media m ON m.poolid = p.poolid"
    " GROUP BY p.poolid, p.name, p.maxvols ORDER BY bytes DESC, p.name",
    "volumes_to_recycle": "SELECT m.volumename, p.name AS pool, m.lastwritten + m.volretention * interval '1 second' AS expires, m.volbytes FROM media m JOIN pool p USING (poolid)"
    " WHERE m.volstatus IN ('Full', 'Used') AND m.recycle = 1 AND m.lastwritten + m.volretention * interval '1 second' < now() ORDER BY 3, 1",
    "success_rate": "WITH runs AS (SELECT name, count(*) AS all_runs, count(*) FILTER (WHERE jobstatus = 'T') AS good, max(endtime) AS last_run FROM job WHERE type = 'B' GROUP BY name)"
    " SELECT name, all_runs, good, round(100.0 * good / all_runs, 1) AS percent, rank() OVER (ORDER BY good::numeric / all_runs DESC) AS place, last_run FROM runs",
    "growth_by_month": "SELECT c.name, date_trunc('month', j.starttime) AS month, sum(j.jobbytes) AS bytes,"
    " sum(j.jobbytes) - lag(sum(j.jobbytes)) OVER (PARTITION BY c.name ORDER BY date_trunc('month', j.starttime)) AS more FROM job j JOIN client c USING (clientid)"
    " WHERE j.jobstatus = 'T' GROUP BY c.name, date_trunc('month', j.starttime)",
    "busiest_paths": "SELECT p.path, count(*) AS files, count(DISTINCT f.jobid) AS jobs, max(j.endtime) AS last_saved FROM file f JOIN path p ON p.pathid = f.pathid"
    " JOIN job j ON j.jobid = f.jobid GROUP BY p.pathid, p.path HAVING count(*) > 3 ORDER BY count(*) DESC, p.path LIMIT 10",
    "failed_with_log": "SELECT j.jobid, j.name, c.name AS client, j.jobstatus, string_agg(l.logtext, E'\\n' ORDER BY l.time, l.logid) AS log FROM job j LEFT JOIN client c USING (clientid)"
    " JOIN log l ON l.jobid = j.jobid WHERE j.jobstatus IN ('f', 'E', 'A') AND (l.logtext ILIKE '%error%' OR l.logtext ~* 'fatal') GROUP BY j.jobid, j.name, c.name, j.jobstatus",
}
FIRST = """
INSERT INTO client (clientid, name, uname) SELECT i, 'host' || i || '-fd', '9.6 linux' FROM generate_series(1, 9) AS i;
INSERT INTO pool (poolid, name, maxvols, labelformat, pooltype) SELECT i, 'Pool' || i, (i - 1) * 10, 'V', 'Backup' FROM generate_series(1, 4) AS i;
INSERT INTO job (jobid, job, name, type, level, clientid, jobstatus, schedtime, starttime, endtime, jobfiles, jobbytes, poolid)
  SELECT i, 'job.' || i, 'Backup' || i % 5, CASE WHEN i % 11 = 0 THEN 'R' ELSE 'B' END, CASE WHEN i % 6 = 0 THEN 'F' ELSE 'I' END, nullif(i % 9, 0),
  CASE i % 7 WHEN 0 THEN 'f' WHEN 1 THEN 'E' WHEN 2 THEN 'x' ELSE 'T' END, timestamp '2026-01-01' + i * interval '19 hours', timestamp '2026-01-01' + i * interval '19 hours 1 second',
  CASE WHEN i % 13 <> 0 THEN timestamp '2026-01-01' + (i / 2) * interval '38 hours 20 minutes' END, i % 10, CASE WHEN i % 8 <> 0 THEN i::bigint * 123456789 END, 1 + i % 4
  FROM generate_series(1, 120) AS i;
INSERT INTO media (mediaid, volumename, poolid, mediatype, volstatus, volbytes, lastwritten, volretention, recycle)
  SELECT i, 'Vol' || i, nullif(i % 4, 0), 'File', (ARRAY['Full', 'Used', 'Append', 'Error'])[1 + i % 4 / (1 + i % 2)], i::bigint * 1000000007,
  CASE WHEN i % 9 <> 0 THEN timestamp '2026-01-10' + (i / 3) * interval '1 day' END, 86400 * (i % 5), i % 2 FROM generate_series(1, 60) AS i;
INSERT INTO path (pathid, path) SELECT i, '/srv/' || i || '/' FROM generate_series(1, 15) AS i;
INSERT INTO file (fileid, jobid, pathid, filenameid, lstat, md5) SELECT i, 1 + i * 7 % 120, 1 + i * i % 15, i % 40, 'x', 'y' FROM generate_series(1, 400) AS i;
INSERT INTO log (logid, jobid, time, logtext) SELECT i, 1 + i % 120, timestamp '2026-01-01' + i / 3 * interval '1 hour',
  CASE i % 4 WHEN 0 THEN 'Error: ' || i WHEN 1 THEN 'a FATAL one' WHEN 2 THEN 'ok' ELSE E'100% error\\\\N' END FROM generate_series(1, 300) AS i;
"""
DAYS = {
    "jobs end, come and are purged": """
INSERT INTO job (jobid, job, name, type, level, clientid, jobstatus, starttime, endtime, jobfiles, jobbytes)
  SELECT i, 'job.' || i, 'Backup' || i % 6, 'B', CASE WHEN i % 4 = 0 THEN 'F' ELSE 'D' END, 1 + i % 10, CASE WHEN i % 5 = 0 THEN 'A' ELSE 'T' END,
  now()::timestamp(0) - i * interval '1 day', now()::timestamp(0) - i * interval '23 hours', i, i * 1000 FROM generate_series(201, 240) AS i;
UPDATE job SET jobstatus = 'T', endtime = starttime + interval '1 hour' WHERE jobstatus = 'x';
DELETE FROM job WHERE jobid % 10 = 7;
DELETE FROM file WHERE jobid % 10 = 7;
DELETE FROM log WHERE logid % 5 = 0;
UPDATE media SET volstatus = 'Recycle', lastwritten = NULL WHERE mediaid % 7 = 1;
""",
    "ties, NULL and names that change": """
UPDATE job SET endtime = '2026-05-05 05:05:05', jobbytes = NULL WHERE clientid = 3;
UPDATE job SET clientid = NULL WHERE clientid = 5;
UPDATE client SET name = 'moved-fd' WHERE clientid = 2;
UPDATE pool SET maxvols = NULL WHERE poolid = 2;
UPDATE status SET jobstatuslong = NULL WHERE jobstatus = 'f';
DELETE FROM status WHERE jobstatus = 'E';
DELETE FROM media WHERE poolid = 3;
DELETE FROM client WHERE clientid = 7;
UPDATE file SET pathid = 2 WHERE pathid IN (4, 5);
""",
    "all rows leave": "DELETE FROM file; DELETE FROM log; TRUNCATE media; DELETE FROM job; DELETE FROM client WHERE clientid > 2; DELETE FROM pool;",
    "some come again": """
INSERT INTO pool (poolid, name, maxvols, labelformat) VALUES (1, 'Pool1', 0, 'V'), (2, 'Pool1', 5, 'V');
INSERT INTO job (jobid, job, name, type, level, clientid, jobstatus, starttime, endtime, jobbytes)
  VALUES (1, 'j', 'n', 'B', 'F', 1, 'T', '2026-11-01', '2026-11-01', 0), (2, 'j', 'n', 'B', 'F', 1, 'f', '2026-11-01', NULL, NULL), (3, 'j', 'n', 'B', 'F', 8, 'T', NULL, NULL, 1);
INSERT INTO media (mediaid, volumename, poolid, mediatype, volstatus, lastwritten, recycle) VALUES (1, 'V', 1, 'File', 'Full', '2020-02-02', 1);
INSERT INTO log (logid, jobid, time, logtext) VALUES (1, 2, NULL, 'error'), (2, 2, '2026-11-01', 'fatal'), (3, 2, '2026-11-01', '');
""",
}
APPLICATION = Application("bacula-director-pgsql", "usr/share/dbconfig-common/data/bacula-director-pgsql/install/pgsql", VIEWS, FIRST, DAYS)
