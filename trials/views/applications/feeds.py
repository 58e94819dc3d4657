"""A reader of feeds, tt-rss of the distribution: what its operators want to see, over some users, feeds and articles."""

from trials.views.applications.application import Application

VIEWS = {
    "unread_by_user": "SELECT u.login, count(*) FILTER (WHERE ue.unread) AS unread, count(*) FILTER (WHERE ue.marked) AS starred, max(ue.last_read) AS last_read"
    " FROM ttrss_users u LEFT JOIN ttrss_user_entries ue ON ue.owner_uid = u.id GROUP BY u.id, u.login",
    "silent_feeds": "SELECT f.id, f.title, f.feed_url FROM ttrss_feeds f WHERE NOT EXISTS (SELECT 1 FROM ttrss_user_entries ue WHERE ue.feed_id = f.id)",
    "failing_feeds": "SELECT u.login, count(*) AS feeds, min(f.last_updated) AS oldest FROM ttrss_feeds f JOIN ttrss_users u ON u.id = f.owner_uid WHERE f.last_error <> ''"
    " GROUP BY u.login ORDER BY count(*) DESC, u.login",
    "articles_by_day": "SELECT date_trunc('day', date_entered) AS day, coalesce(lang, '?') AS lang, count(*) AS articles, sum(num_comments) AS comments,"
    " round(avg(length(content)), 1) AS mean_length FROM ttrss_entries GROUP BY 1, 2",
    "latest_article": "SELECT DISTINCT ON (ue.feed_id) ue.feed_id, e.title, e.updated FROM ttrss_user_entries ue JOIN ttrss_entries e ON e.id = ue.ref_id"
    " ORDER BY ue.feed_id, e.updated DESC, e.id DESC",
    "feeds_of_categories": "SELECT coalesce(c.title, 'Uncategorized') AS category, count(f.id) AS feeds, count(*) FILTER (WHERE f.update_interval = -1) AS disabled"
    " FROM ttrss_feeds f LEFT JOIN ttrss_feed_categories c ON c.id = f.cat_id GROUP BY coalesce(c.title, 'Uncategorized')",
    "labels_of_articles": "SELECT ul.article_id, string_agg(l.caption, ', ' ORDER BY l.caption) AS labels FROM ttrss_user_labels2 ul JOIN ttrss_labels2 l ON l.id = ul.label_id"
    " GROUP BY ul.article_id",
    "popular_tags": "SELECT tag_name, count(DISTINCT post_int_id) AS posts, count(DISTINCT owner_uid) AS users FROM ttrss_tags GROUP BY tag_name HAVING count(*) > 1"
    " ORDER BY count(DISTINCT post_int_id) DESC, tag_name LIMIT 20",
    "podcasts": "SELECT e.id, e.title, n.content_url FROM ttrss_entries e JOIN ttrss_enclosures n ON n.post_id = e.id WHERE n.content_type LIKE 'audio/%'",
    "share_read": "SELECT f.title, count(*) AS articles, round(100.0 * count(*) FILTER (WHERE NOT ue.unread) / count(*), 1) AS percent_read, sum(ue.score) AS score"
    " FROM ttrss_feeds f JOIN ttrss_user_entries ue ON ue.feed_id = f.id GROUP BY f.id HAVING count(*) > 2",
}
FIRST = """
INSERT INTO ttrss_users (id, login, pwd_hash) SELECT i, 'user' || i, 'x' FROM generate_series(11, 15) AS i;
INSERT INTO ttrss_feed_categories (id, owner_uid, title) SELECT i, 11 + i % 3, 'Category ' || i % 2 FROM generate_series(1, 4) AS i;
INSERT INTO ttrss_feeds (id, owner_uid, title, cat_id, feed_url, last_updated, last_error, update_interval)
  SELECT i, 11 + i % 4, 'Feed ' || i, nullif(i % 5, 0), 'http://feed/' || i, timestamp '2026-01-01' + i * interval '5 hours', CASE WHEN i % 3 = 0 THEN 'timeout' ELSE '' END, i % 3 - 1
  FROM generate_series(101, 114) AS i;
INSERT INTO ttrss_entries (id, title, guid, link, updated, content, content_hash, date_entered, date_updated, num_comments, lang)
  SELECT i, 'Article ' || i, 'guid' || i, 'http://a/' || i, timestamp '2026-01-01' + (i / 2) * interval '3 hours', repeat('c', i % 7), 'h', timestamp '2026-01-01' + i * interval '2 hours',
  timestamp '2026-01-02', i % 4, CASE i % 3 WHEN 0 THEN 'en' WHEN 1 THEN 'de' END FROM generate_series(1, 90) AS i;
INSERT INTO ttrss_user_entries (int_id, ref_id, uuid, feed_id, owner_uid, marked, tag_cache, label_cache, last_read, score, unread)
  SELECT i, 1 + i % 90, '', 101 + i % 12, 11 + i % 4, i % 9 = 0, '', '', CASE WHEN i % 3 = 0 THEN timestamp '2026-02-01' + i * interval '1 minute' END, i % 5 - 2, i % 3 <> 0
  FROM generate_series(1, 150) AS i;
INSERT INTO ttrss_labels2 (id, owner_uid, caption) SELECT i, 11, 'label ' || i FROM generate_series(1, 4) AS i;
INSERT INTO ttrss_user_labels2 (label_id, article_id) SELECT 1 + i % 4, 1 + (i / 2) % 20 FROM generate_series(1, 30) AS i;
INSERT INTO ttrss_tags (id, tag_name, owner_uid, post_int_id) SELECT i, 'tag' || i % 8, 11 + i % 3, 1 + i % 50 FROM generate_series(1, 70) AS i;
INSERT INTO ttrss_enclosures (id, content_url, content_type, title, duration, post_id)
  SELECT i, 'http://f/' || i, CASE WHEN i % 2 = 0 THEN 'audio/mpeg' ELSE 'image/png' END, '', '', 1 + i % 40 FROM generate_series(1, 30) AS i;
"""
DAYS = {
    "articles come, are read, and leave": """
UPDATE ttrss_user_entries SET unread = false, last_read = '2026-03-01' WHERE int_id % 5 = 1;
DELETE FROM ttrss_user_entries WHERE feed_id = 103;
DELETE FROM ttrss_entries WHERE id % 17 = 3;
UPDATE ttrss_feeds SET last_error = '', cat_id = NULL WHERE id % 6 = 0;
INSERT INTO ttrss_entries (id, title, guid, link, updated, content, content_hash, date_entered, date_updated)
  SELECT i, 'New ' || i, 'guid' || i, '', '2026-04-01', '', '', '2026-04-01', '2026-04-01' FROM generate_series(201, 206) AS i;
INSERT INTO ttrss_user_entries (int_id, ref_id, uuid, feed_id, owner_uid, tag_cache, label_cache) SELECT 200 + i, 200 + i, '', 101 + i, 11 + i % 4, '', '' FROM generate_series(1, 6) AS i;
DELETE FROM ttrss_feed_categories WHERE id = 2;
UPDATE ttrss_labels2 SET caption = 'a label' WHERE id = 3;
DELETE FROM ttrss_tags WHERE tag_name = 'tag1';
DELETE FROM ttrss_users WHERE id = 14;
UPDATE ttrss_enclosures SET content_type = 'audio/ogg' WHERE id % 7 = 1;
""",
    "ties, NULL and groups that leave": """
UPDATE ttrss_entries SET updated = '2026-05-01', lang = NULL WHERE id % 4 = 0;
UPDATE ttrss_user_entries SET feed_id = NULL WHERE feed_id = 105;
UPDATE ttrss_user_entries SET last_read = NULL, score = 0 WHERE owner_uid = 12;
UPDATE ttrss_feed_categories SET title = 'Uncategorized' WHERE id = 3;
UPDATE ttrss_feeds SET last_updated = NULL WHERE id = 109;
DELETE FROM ttrss_user_labels2 WHERE article_id < 5;
DELETE FROM ttrss_feeds WHERE id IN (107, 108);
INSERT INTO ttrss_tags (id, tag_name, owner_uid, post_int_id) SELECT 900 + i, 'tag2', 11, min(e.int_id) FROM ttrss_user_entries AS e, generate_series(1, 2) AS i GROUP BY i;
""",
    "all rows leave, and some come again": """
DELETE FROM ttrss_tags; DELETE FROM ttrss_user_labels2; DELETE FROM ttrss_enclosures; DELETE FROM ttrss_user_entries; DELETE FROM ttrss_entries;
INSERT INTO ttrss_entries (id, title, guid, link, updated, content, content_hash, date_entered, date_updated, num_comments)
  VALUES (1, '', 'g', '', '2026-01-01', '', '', '2026-01-01', '2026-01-01', 0);
INSERT INTO ttrss_user_entries (int_id, ref_id, uuid, feed_id, owner_uid, tag_cache, label_cache) VALUES (1, 1, '', 101, 11, '', ''), (2, 1, '', NULL, 12, '', '');
""",
}
APPLICATION = Application("tt-rss", "usr/share/tt-rss/schema/ttrss_schema_pgsql.sql", VIEWS, FIRST, DAYS)
