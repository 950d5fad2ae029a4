-- a row isn't found before the index is synchronised
CREATE TABLE docs (id NUMBER PRIMARY KEY, body CLOB, price NUMBER);
CREATE INDEX di ON docs(body) INDEXTYPE IS CTXSYS.CONTEXT;
INSERT INTO docs VALUES (1,'quick fox quick',0);
SELECT id, SCORE(1) FROM docs WHERE CONTAINS(body,'quick',1) > 0;
EXEC CTX_DDL.SYNC_INDEX('di');
SELECT id, SCORE(1) FROM docs WHERE CONTAINS(body,'quick',1) > 0;
INSERT INTO docs (price, id, body) VALUES (-7, -2,'the Quick|one');
EXEC CTX_DDL.SYNC_INDEX('DI', '16M');
SELECT price, SCORE(1), body, id FROM docs WHERE CONTAINS(body,'QUICK',1) > 0;
SELECT id FROM docs WHERE CONTAINS(body,'quick') > 1;
SELECT id FROM docs WHERE CONTAINS(body,'quick') > 2;
