-- What a search shows while rows come, change and go.
CREATE TABLE docs (id NUMBER PRIMARY KEY, body CLOB, price NUMBER);
CREATE INDEX di ON docs(body) INDEXTYPE IS CTXSYS.CONTEXT;
INSERT INTO docs VALUES (1, 'quick fox quick', 0);
EXEC CTX_DDL.SYNC_INDEX('di');
SELECT id, SCORE(1) FROM docs WHERE CONTAINS(body, 'quick', 1) > 0;

-- Another column is set: the row is found as before.
UPDATE docs SET price = 9 WHERE id = 1;
COMMIT;
SELECT id, SCORE(1) FROM docs WHERE CONTAINS(body, 'quick', 1) > 0;

-- The text is set: the row waits. It is found by no old word any more, and by its new ones once the index is synchronised.
UPDATE docs SET body = 'slow' WHERE id = 1;
SELECT id, SCORE(1) FROM docs WHERE CONTAINS(body, 'quick', 1) > 0;
SELECT id, SCORE(1) FROM docs WHERE CONTAINS(body, 'slow', 1) > 0;
SELECT * FROM ctx_user_pending;
EXEC CTX_DDL.SYNC_INDEX('di');
SELECT id, SCORE(1) FROM docs WHERE CONTAINS(body, 'slow', 1) > 0;

-- A row goes. One of the same key that comes is another row, and waits.
DELETE FROM docs WHERE id = 1;
SELECT COUNT(*) FROM docs WHERE CONTAINS(body, 'slow') > 0;
INSERT INTO docs VALUES (1, 'a slow one', 5);
SELECT COUNT(*) FROM docs WHERE CONTAINS(body, 'slow') > 0;
EXEC CTX_DDL.SYNC_INDEX('di');
SELECT id, SCORE(1) FROM docs WHERE CONTAINS(body, 'slow', 1) > 0;

-- Conditions, with a search and without one.
INSERT INTO docs VALUES (2, 'slow and slow', 7);
INSERT INTO docs VALUES (-3, 'quick', 7);
EXEC CTX_DDL.SYNC_INDEX('di');
SELECT id FROM docs WHERE price = 7;
SELECT id FROM docs WHERE id BETWEEN -3 AND 1 AND price < 7;
SELECT COUNT(*) FROM docs WHERE CONTAINS(body, 'slow') > 0 AND price IN (1, 7);
SELECT id, SCORE(1) FROM docs WHERE price <= 7 AND CONTAINS(body, 'slow', 1) > 1;
UPDATE docs SET price = 1 WHERE price > 5;
UPDATE docs SET price = 1 WHERE price > 5;
SELECT * FROM docs WHERE id < 2;

-- What is refused changes nothing.
UPDATE docs SET id = 5;
UPDATE docs SET price = 1, price = 2;
UPDATE docs SET nope = 1;
SELECT id FROM docs WHERE body = 'quick';
SELECT SCORE(1) FROM docs WHERE id = 1;
SELECT id FROM docs WHERE id >= 9223372036854775808;
DROP TABLE nope;
DROP INDEX nope;

-- An index goes, and is made anew; a table goes with its indexes.
DROP INDEX di;
SELECT id FROM docs WHERE CONTAINS(body, 'slow') > 0;
CREATE INDEX di ON docs(body) INDEXTYPE IS CTXSYS.CONTEXT;
SELECT id FROM docs WHERE CONTAINS(body, 'slow') > 0;
DELETE FROM docs WHERE id > 0;
SELECT COUNT(*) FROM docs;
DROP TABLE docs;
SELECT id FROM docs;
DROP INDEX di;
