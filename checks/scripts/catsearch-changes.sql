-- what a catalogue finds while rows and indexes change: each row as it is now, and the CONTEXT index beside it as it was synchronised
EXEC CTX_DDL.CREATE_INDEX_SET('prices');
EXEC CTX_DDL.ADD_INDEX('prices','price');
EXEC CTX_DDL.ADD_INDEX('prices','kind, price');
EXEC CTX_DDL.CREATE_STOPLIST('small');
EXEC CTX_DDL.ADD_STOPWORD('small','old');
CREATE TABLE lots (id NUMBER PRIMARY KEY, title VARCHAR2(30), kind VARCHAR2(10), price NUMBER, note CLOB);
INSERT INTO lots VALUES (1,'old lamp','lamp',10,'from a ship');
INSERT INTO lots VALUES (2,'lamp','lamp',20,'');
CREATE INDEX li ON lots(title) INDEXTYPE IS CTXCAT PARAMETERS ('INDEX SET prices');
-- rows that were there before the index, and rows that come later, whatever their keys
SELECT id FROM lots WHERE CATSEARCH(title,'lamp',NULL) > 0;
INSERT INTO lots VALUES (4,'new lamp','lamp',5,'as new');
INSERT INTO lots VALUES (-4,'lamp, old','lamp',15,'no plug');
INSERT INTO lots (note, price, kind, title, id) VALUES ('','20','chair','old chair',3);
INSERT INTO lots (note, price, kind, title, id) VALUES ('',20,'chair','old chair',3);
SELECT id FROM lots WHERE CATSEARCH(title,'lamp',NULL) > 0;
SELECT id FROM lots WHERE CATSEARCH(title,'old','ORDER BY price') > 0;
-- an INSERT that is refused leaves nothing behind, be it for its key or for its length
INSERT INTO lots VALUES (4,'other lamp','lamp',1,'');
INSERT INTO lots VALUES (5,'a lamp with a title of over thirty','lamp',1,'');
SELECT id, price FROM lots WHERE CATSEARCH(title,'lamp','price < 10') > 0;
SELECT COUNT(*) FROM lots WHERE CATSEARCH(title,'other | with',NULL) > 0;
-- an UPDATE of the text: the old words are gone, and those that stay are there
UPDATE lots SET title = 'old table lamp' WHERE id = 1;
SELECT id FROM lots WHERE CATSEARCH(title,'table',NULL) > 0;
SELECT id FROM lots WHERE CATSEARCH(title,'"old lamp"',NULL) > 0;
SELECT id FROM lots WHERE CATSEARCH(title,'"table lamp"',NULL) > 0;
UPDATE lots SET title = 'table, old' WHERE id = 1;
SELECT id FROM lots WHERE CATSEARCH(title,'lamp',NULL) > 0;
SELECT id FROM lots WHERE CATSEARCH(title,'old table',NULL) > 0;
UPDATE lots SET title = 'table, old' WHERE id = 1;
SELECT id FROM lots WHERE CATSEARCH(title,'old table',NULL) > 0;
UPDATE lots SET title = '' WHERE id = 1;
SELECT id FROM lots WHERE CATSEARCH(title,'old | table | t*',NULL) > 0;
UPDATE lots SET title = 'old lamp' WHERE id = 1;
SELECT id FROM lots WHERE CATSEARCH(title,'"old lamp"','kind = ''lamp''') > 0;
-- an UPDATE of what stands in a sub-index, with the text and without it; and of what stands in none
UPDATE lots SET price = 7 WHERE id = 1;
SELECT id, price FROM lots WHERE CATSEARCH(title,'lamp','price < 16 ORDER BY price') > 0;
UPDATE lots SET price = 20, kind = 'light' WHERE price < 10 AND kind = 'lamp';
SELECT id, price, kind FROM lots WHERE CATSEARCH(title,'lamp','ORDER BY kind, price') > 0;
UPDATE lots SET kind = 'seat', title = 'seat', price = -1 WHERE id = 3;
SELECT id FROM lots WHERE CATSEARCH(title,'chair',NULL) > 0;
SELECT id FROM lots WHERE CATSEARCH(title,'seat','kind = ''seat'' AND price = -1') > 0;
UPDATE lots SET note = 'lamp' WHERE id = 3;
SELECT id FROM lots WHERE CATSEARCH(title,'lamp','price = -1') > 0;
SELECT id, note FROM lots WHERE CATSEARCH(title,'seat',NULL) > 0;
-- an UPDATE that meets no row, or is refused, changes nothing
UPDATE lots SET title = 'gone' WHERE id = 99;
UPDATE lots SET title = 'a lamp with a title of over thirty' WHERE id = 2;
UPDATE lots SET title = 'gone', price = 'x';
UPDATE lots SET title = 'gone', id = 5 WHERE id = 2;
SELECT COUNT(*) FROM lots WHERE CATSEARCH(title,'gone',NULL) > 0;
SELECT id FROM lots WHERE CATSEARCH(title,'lamp',NULL) > 0;
-- a DELETE, and a row that comes again under the same key with other words
DELETE FROM lots WHERE kind = 'light' AND price = 20 AND id > 1;
SELECT id FROM lots WHERE CATSEARCH(title,'lamp','price = 20') > 0;
INSERT INTO lots VALUES (4,'four','lamp',5,'');
SELECT id FROM lots WHERE CATSEARCH(title,'new | lamp',NULL) > 0;
SELECT id FROM lots WHERE CATSEARCH(title,'four',NULL) > 0;
DELETE FROM lots WHERE id = 99;
-- a CONTEXT index on the same column: it has a row when it is synchronised, and has lost it when its text is set
CREATE INDEX ti ON lots(title) INDEXTYPE IS CONTEXT;
UPDATE lots SET title = 'lamp four' WHERE id = 4;
INSERT INTO lots VALUES (6,'lamp','lamp',6,'');
SELECT id FROM lots WHERE CATSEARCH(title,'lamp',NULL) > 0;
SELECT id, SCORE(1) FROM lots WHERE CONTAINS(title,'lamp',1) > 0;
SELECT * FROM ctx_user_pending;
EXEC CTX_DDL.SYNC_INDEX('ti');
EXEC CTX_DDL.SYNC_INDEX('li');
SELECT id FROM lots WHERE CONTAINS(title,'lamp') > 0;
SELECT id FROM lots WHERE CATSEARCH(title,'lamp','ORDER BY price DESC') > 0;
-- a second catalogue, on another column of the table, with stopwords and without sub-indexes
CREATE INDEX ni ON lots(note) INDEXTYPE IS CTXCAT PARAMETERS ('STOPLIST small');
UPDATE lots SET note = 'old ship', title = 'ship' WHERE id = 6;
SELECT id FROM lots WHERE CATSEARCH(note,'ship',NULL) > 0;
SELECT id FROM lots WHERE CATSEARCH(title,'ship',NULL) > 0;
SELECT id FROM lots WHERE CATSEARCH(note,'old',NULL) > 0;
SELECT id FROM lots WHERE CATSEARCH(title,'old',NULL) > 0;
SELECT id FROM lots WHERE CATSEARCH(note,'ship','price = 6') > 0;
SELECT id FROM lots WHERE CATSEARCH(note,'ship',NULL) > 0 AND price = 6;
SELECT id FROM lots WHERE CATSEARCH(title,'ship',NULL) > 0 AND CATSEARCH(note,'ship',NULL) > 0;
-- a set and a list that change later change no index that was made by them
EXEC CTX_DDL.ADD_INDEX('prices','id');
EXEC CTX_DDL.ADD_STOPWORD('small','ship');
SELECT id FROM lots WHERE CATSEARCH(title,'lamp','id < 5') > 0;
SELECT id FROM lots WHERE CATSEARCH(note,'ship',NULL) > 0;
-- an index that is dropped, and made anew by what the set and the list have now
DROP INDEX li;
SELECT id FROM lots WHERE CATSEARCH(title,'lamp',NULL) > 0;
SELECT id FROM lots WHERE CONTAINS(title,'lamp') > 0;
SELECT id FROM lots WHERE CATSEARCH(note,'ship',NULL) > 0;
DROP INDEX ni;
UPDATE lots SET title = 'lamp of a ship' WHERE id = 6;
DELETE FROM lots WHERE id = 4;
CREATE INDEX li ON lots(title) INDEXTYPE IS CTXCAT PARAMETERS ('STOPLIST small INDEX SET prices');
SELECT id FROM lots WHERE CATSEARCH(title,'lamp','id > 0 ORDER BY id DESC') > 0;
SELECT id FROM lots WHERE CATSEARCH(title,'ship | old | four',NULL) > 0;
-- dropping the CONTEXT index leaves the catalogue
DROP INDEX ti;
SELECT id FROM lots WHERE CATSEARCH(title,'lamp',NULL) > 0;
-- a table without rows has an index all the same
DELETE lots;
SELECT id FROM lots WHERE CATSEARCH(title,'lamp','ORDER BY price') > 0;
SELECT COUNT(*) FROM lots WHERE CATSEARCH(title,'l*',NULL) > 0;
INSERT INTO lots VALUES (1,'lamp','',0,'');
SELECT * FROM lots WHERE CATSEARCH(title,'l*',NULL) > 0;
-- two tables with the same texts and keys, each with its own catalogue
CREATE TABLE sold (id NUMBER PRIMARY KEY, title VARCHAR2(30), price NUMBER);
CREATE INDEX si ON sold(title) INDEXTYPE IS CTXCAT;
INSERT INTO sold VALUES (1,'lamp',3);
INSERT INTO sold VALUES (2,'lamp',4);
SELECT id FROM lots WHERE CATSEARCH(title,'lamp',NULL) > 0;
SELECT id FROM sold WHERE CATSEARCH(title,'lamp',NULL) > 0;
UPDATE sold SET title = 'chair';
SELECT id FROM lots WHERE CATSEARCH(title,'lamp',NULL) > 0;
SELECT id FROM sold WHERE CATSEARCH(title,'lamp',NULL) > 0;
-- a table that is dropped, and one of its name with a catalogue of the same name
DROP TABLE lots;
SELECT id FROM lots WHERE CATSEARCH(title,'lamp',NULL) > 0;
SELECT id FROM sold WHERE CATSEARCH(title,'chair',NULL) > 0;
CREATE TABLE lots (id NUMBER PRIMARY KEY, price NUMBER, title CLOB);
SELECT id FROM lots WHERE CATSEARCH(title,'lamp',NULL) > 0;
CREATE INDEX li ON lots(title) INDEXTYPE IS CTXCAT;
SELECT id FROM lots WHERE CATSEARCH(title,'lamp',NULL) > 0;
INSERT INTO lots VALUES (2,0,'lamp');
SELECT * FROM lots WHERE CATSEARCH(title,'lamp',NULL) > 0;
-- a COMMIT changes nothing
COMMIT;
SELECT id FROM lots WHERE CATSEARCH(title,'lamp',NULL) > 0;
