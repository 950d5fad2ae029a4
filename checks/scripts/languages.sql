-- texts in several scripts, whose words are found in any case, and white space between lexemes
CREATE TABLE docs (id NUMBER PRIMARY KEY, body CLOB, price NUMBER);
CREATE INDEX di ON docs(body) INDEXTYPE IS CTXSYS.CONTEXT;
INSERT INTO docs VALUES (1,'CAFÉ, Straße',0);
INSERT INTO docs VALUES (2,'Ὀδυσσεύς|語',0);
EXEC CTX_DDL.SYNC_INDEX('di');
SELECT id FROM docs WHERE CONTAINS(body,'café') > 0;
SELECT id FROM docs WHERE CONTAINS(body,'STRASSE') > 0;
SELECT body FROM docs WHERE CONTAINS(body,'ὈΔΥΣΣΕΎΣ') > 0;
SELECT id FROM docs WHERE CONTAINS(body,'cafe') > 0;
SELECT id FROM docs WHERE CONTAINS(body,'语言') > 0;
EXEC CTX_DOC.POLICY_TOKENS('naïve');
INSERT INTO döcs VALUES (1);
