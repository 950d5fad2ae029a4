-- A table, a text index on one of its columns, and a search.
CREATE TABLE docs (id NUMBER PRIMARY KEY, body CLOB, price NUMBER);
CREATE INDEX di ON docs(body) INDEXTYPE IS CTXSYS.CONTEXT;
INSERT INTO docs VALUES (1, 'quick fox quick', 0);

-- A new row is found after the next synchronisation, and not before.
SELECT id, SCORE(1) FROM docs WHERE CONTAINS(body, 'quick', 1) > 0;
EXEC CTX_DDL.SYNC_INDEX('di');
SELECT id, SCORE(1) FROM docs WHERE CONTAINS(body, 'quick', 1) > 0;
