-- rows that change, and go
CREATE TABLE docs (id NUMBER PRIMARY KEY, body CLOB, price NUMBER);
CREATE INDEX di ON docs(body) INDEXTYPE IS CTXSYS.CONTEXT;
INSERT INTO docs VALUES (1,'quick fox quick',0);
EXEC CTX_DDL.SYNC_INDEX('di');
UPDATE docs SET price=9 WHERE id = 1;
COMMIT;
SELECT id, SCORE(1) FROM docs WHERE CONTAINS(body,'quick',1) > 0;
UPDATE docs SET body='slow' WHERE id = 1;
SELECT id, SCORE(1) FROM docs WHERE CONTAINS(body,'quick',1) > 0;
SELECT id, SCORE(1) FROM docs WHERE CONTAINS(body,'slow',1) > 0;
EXEC CTX_DDL.SYNC_INDEX('di');
SELECT id, SCORE(1) FROM docs WHERE CONTAINS(body,'slow',1) > 0;
DELETE FROM docs WHERE id = 1;
DROP INDEX di;
DROP TABLE docs;
SELECT id FROM docs;
