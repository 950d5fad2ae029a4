-- 40 zones, each within the one before, and twenty WITHINs of them: the score over a zone is computed once
EXEC CTX_DDL.CREATE_SECTION_GROUP('g','BASIC_SECTION_GROUP');
EXEC CTX_DDL.ADD_ZONE_SECTION('g','p','P');
EXEC CTX_DDL.ADD_SPECIAL_SECTION('g','SENTENCE');
EXEC CTX_DDL.ADD_SPECIAL_SECTION('g','PARAGRAPH');
CREATE TABLE docs (id NUMBER PRIMARY KEY, body CLOB);
CREATE INDEX di ON docs(body) INDEXTYPE IS CTXSYS.CONTEXT PARAMETERS ('SECTION GROUP g');
INSERT INTO docs VALUES (1,'<P>x <P>x <P>x <P>x <P>x <P>x <P>x <P>x <P>x <P>x <P>x <P>x <P>x <P>x <P>x <P>x <P>x <P>x <P>x <P>x <P>x <P>x <P>x <P>x <P>x <P>x <P>x <P>x <P>x <P>x <P>x <P>x <P>x <P>x <P>x <P>x <P>x <P>x <P>x <P>x a</P></P></P></P></P></P></P></P></P></P></P></P></P></P></P></P></P></P></P></P></P></P></P></P></P></P></P></P></P></P></P></P></P></P></P></P></P></P></P></P>');
INSERT INTO docs VALUES (2,'<P>b a. a b</P> a');
EXEC CTX_DDL.SYNC_INDEX('di');
SELECT id, SCORE(1) FROM docs WHERE CONTAINS(body,'a WITHIN p WITHIN p WITHIN p WITHIN p WITHIN p WITHIN p WITHIN p WITHIN p WITHIN p WITHIN p WITHIN p WITHIN p WITHIN p WITHIN p WITHIN p WITHIN p WITHIN p WITHIN p WITHIN p WITHIN p',1) > 0;
SELECT id, SCORE(1) FROM docs WHERE CONTAINS(body,'(x WITHIN SENTENCE) WITHIN p',1) > 0;
SELECT id, SCORE(1) FROM docs WHERE CONTAINS(body,'((a AND b) WITHIN SENTENCE) WITHIN p',1) > 0;
