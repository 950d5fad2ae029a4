-- A day at a help desk: its articles, the searches for them, and the calls that come in.

-- 8:00. The articles of the day before are taken over. One index for each column that is searched.
CREATE TABLE articles (id NUMBER PRIMARY KEY, title VARCHAR2(60), body CLOB, votes NUMBER);
CREATE TABLE calls (id NUMBER PRIMARY KEY, topic VARCHAR2(20), article NUMBER);
INSERT INTO articles VALUES (101, 'Reset your password',
  'Open the sign-in page and choose Forgot password. We mail you a link, and the link stays good for 30 minutes.', 42);
INSERT INTO articles VALUES (102, 'Change the password of a shared mailbox',
  'Only the owner of a shared mailbox may change its password. Sign in as the owner, open Settings, and type the new password twice.', 17);
INSERT INTO articles VALUES (103, 'Printer shows as offline',
  'Turn the printer off and on again. If the printer still shows as offline, add it again by its address, 192.168.0.14.', 63);
INSERT INTO articles VALUES (104, 'Printing on both sides',
  'In the print window choose Layout, then Two-sided. Every printer on the third floor can do this.', 8);
INSERT INTO articles VALUES (105, 'Connect to the office Wi-Fi',
  'Choose the network Office-5, and sign in with your own name and password. Guests use the network Guest.', 51);
INSERT INTO articles VALUES (106, 'Mail is full | sending stops',
  'Your mailbox holds 2,000 messages. Empty the folder Trash, or move old mail to the archive.', 12);
CREATE INDEX title_idx ON articles(title) INDEXTYPE IS CTXSYS.CONTEXT;
CREATE INDEX body_idx ON articles(body) INDEXTYPE IS CTXSYS.CONTEXT;

-- 8:30. Someone forgot a password. The score comes first: how often the word stands in the article. Then two words side by side.
SELECT SCORE(1), id, title FROM articles WHERE CONTAINS(body, 'password', 1) > 0;
SELECT id FROM articles WHERE CONTAINS(body, 'forgot password') > 0;
INSERT INTO calls VALUES (1, 'password', 101);

-- In titles alone, in any case, and only where many readers found it good.
SELECT id, title, votes FROM articles WHERE CONTAINS(title, 'PASSWORD') > 0 AND votes >= 20;

-- A word is found as it stands: printer is another word than print. A hyphen parts words.
SELECT id, SCORE(7) FROM articles WHERE CONTAINS(body, 'printer', 7) > 0;
SELECT id FROM articles WHERE CONTAINS(body, 'print') > 0;
SELECT id FROM articles WHERE CONTAINS(body, 'sided') > 0;

-- 9:15. A new article comes. It waits in both indexes, and is found in each once that is synchronised.
INSERT INTO articles (votes, id, title, body) VALUES (0, 107, 'A new laptop',
  'A laptop is replaced after 4 years. Fill in the form at the desk, and bring the old laptop with its charger.');
SELECT id FROM articles WHERE CONTAINS(body, 'laptop') > 0;
SELECT * FROM ctx_user_pending;
EXEC CTX_DDL.SYNC_INDEX('body_idx');
EXEC CTX_DDL.SYNC_INDEX('title_idx', '64M');
SELECT id, SCORE(1) FROM articles WHERE CONTAINS(body, 'laptop', 1) > 0;

-- 10:00. The printers have moved to the fourth floor. The article is corrected, and waits in the index on its body alone:
-- it isn't found by its old text any more, and by its new one after the synchronisation.
UPDATE articles SET body = 'In the print window choose Layout, then Two-sided. Every printer on the fourth floor can do this.' WHERE id = 104;
SELECT id FROM articles WHERE CONTAINS(body, 'third') > 0;
SELECT id FROM articles WHERE CONTAINS(body, 'fourth') > 0;
SELECT * FROM ctx_user_pending;
EXEC CTX_DDL.SYNC_INDEX('body_idx');
SELECT id, title FROM articles WHERE CONTAINS(body, 'fourth') > 0;

-- 11:30. Two calls about printers, and a vote for the article that helped. Votes are in no index, so nothing waits.
INSERT INTO calls VALUES (2, 'printer', 103);
INSERT INTO calls VALUES (3, 'printer', 103);
UPDATE articles SET votes = 64 WHERE id = 103;
SELECT COUNT(*) FROM ctx_user_pending;
SELECT id, votes FROM articles WHERE CONTAINS(title, 'printer') > 0;

-- 14:00. What is refused changes nothing.
INSERT INTO articles VALUES (101, 'Again', 'The key is taken.', 0);
UPDATE articles SET title = 'A title of over sixty bytes, which is more than its column takes' WHERE id = 105;
UPDATE articles SET id = 108 WHERE id = 107;
SELECT author FROM articles WHERE votes > 10;
SELECT id FROM articles WHERE CONTAINS(votes, '42') > 0;
SELECT id FROM articles WHERE CONTAINS(body, 'password AND') > 0;
EXEC CTX_DDL.SYNC_INDEX('bodies_idx');

-- 15:00. The old Wi-Fi is switched off. Its article is withdrawn, and is found no more from here on.
DELETE FROM articles WHERE id = 105;
SELECT id FROM articles WHERE CONTAINS(body, 'network') > 0;

-- Few readers found these two good. The first was corrected today; the other goes. In a printed text a bar has a backslash before it.
SELECT id, title, votes FROM articles WHERE votes BETWEEN 1 AND 12;
DELETE FROM articles WHERE votes BETWEEN 1 AND 12 AND id > 104;

-- 16:30. A call about something else. Its topic was mistyped, and is set right.
INSERT INTO calls VALUES (4, 'latpop', 107);
UPDATE calls SET topic = 'laptop' WHERE topic = 'latpop';
SELECT * FROM calls WHERE id >= 3;

-- 17:00. The closing count: the articles, those that tell of passwords, what waits, and the calls, of them those on printers.
SELECT COUNT(*) FROM articles;
SELECT COUNT(*) FROM articles WHERE CONTAINS(body, 'password') > 0;
SELECT COUNT(*) FROM ctx_user_pending;
SELECT COUNT(*) FROM calls;
SELECT COUNT(*) FROM calls WHERE topic = 'printer';

-- The list of calls begins anew each day, and the search in titles is given up. COMMIT isn't needed.
DROP TABLE calls;
DROP INDEX title_idx;
COMMIT;
SELECT id, title, votes FROM articles;
