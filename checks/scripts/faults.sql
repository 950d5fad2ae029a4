-- query texts with their faults, and of which a word is left
CREATE TABLE docs (id NUMBER PRIMARY KEY, body CLOB, price NUMBER);
CREATE INDEX di ON docs(body) INDEXTYPE IS CTXSYS.CONTEXT;
INSERT INTO docs VALUES (1,'quick fox quick',0);
EXEC CTX_DDL.SYNC_INDEX('di');
SELECT id, SCORE(1) FROM docs WHERE CONTAINS(body,'({Quick})',1) > 0;
SELECT id FROM docs WHERE CONTAINS(body,'quick*0') > 0;
SELECT id FROM docs WHERE CONTAINS(body,'fuzzy(x)') > 0;
SELECT id FROM docs WHERE CONTAINS(body,'a,b') > 0;
SELECT id FROM docs WHERE CONTAINS(body,'(a') > 0;
SELECT id FROM docs WHERE CONTAINS(body,'a)') > 0;
SELECT id FROM docs WHERE CONTAINS(body,'') > 0;
SELECT id FROM docs WHERE CONTAINS(body,'é é)') > 0;
SELECT id FROM docs WHERE CONTAINS(body,'NEAR((a,b),101)') > 0;
SELECT id FROM docs WHERE CONTAINS(body,'DEFINESCORE(quick, COMPLETION)') > 0;
SELECT id FROM docs WHERE CONTAINS(body,'((((((((((((((((((((((((((((((((( quick') > 0;
SELECT id FROM docs WHERE CONTAINS(body,'web\-site = shop') > 0;
SELECT id FROM docs WHERE CONTAINS(body,'quick WITHIN SENTENCE') > 0;
SELECT id FROM docs WHERE CONTAINS(body,'qui%') > 0;

-- A name that isn't there comes before all else that is wrong, but for what isn't understood.
SELECT nope FROM nothing WHERE MATCHES(x, 'a') > 00 ORDER BY y;
SELECT * FROM ctx_user_pending WHERE MATCHES(x, 'a') > 0;
CREATE INDEX docs ON nothing(nope) INDEXTYPE IS CTXRULE PARAMETERS ('x y');
CREATE INDEX docs ON nothing(nope) INDEXTYPE IS CTXRULE PARAMETERS ('x y') PARALLEL 17;
