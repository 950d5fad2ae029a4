-- a lexer preference: the hyphen is taken out of words
EXEC CTX_DDL.CREATE_PREFERENCE('lx','BASIC_LEXER');
EXEC CTX_DDL.SET_ATTRIBUTE('lx','skipjoins','-');
EXEC CTX_DOC.POLICY_TOKENS('lx','Web-site, 1,000.50!');
EXEC CTX_DOC.POLICY_TOKENS('Web-site, 1,000.50!');
-- the value replaces the former one
EXEC CTX_DDL.SET_ATTRIBUTE('LX','SkipJoins','_');
EXEC CTX_DOC.POLICY_TOKENS('lx','Web-site web_site');
EXEC CTX_DDL.SET_ATTRIBUTE('lx','printjoins','a');
EXEC CTX_DDL.SET_ATTRIBUTE('lx','base_letter','perhaps');
EXEC CTX_DDL.SET_ATTRIBUTE('lx','stems','NO');
EXEC CTX_DDL.SET_ATTRIBUTE('nope','printjoins','a');
EXEC CTX_DDL.SET_ATTRIBUTE('lx','printjoins');
EXEC CTX_DDL.CREATE_PREFERENCE('lx','BASIC_LEXER');
EXEC CTX_DDL.CREATE_PREFERENCE('ly','WORLD_LEXER');
EXEC CTX_DOC.POLICY_TOKENS('nope','a');
EXEC CTX_DOC.POLICY_TOKENS('no name','a');
-- base letters
EXEC CTX_DDL.CREATE_PREFERENCE('bl','basic_lexer');
EXEC CTX_DDL.SET_ATTRIBUTE('bl','base_letter','yes');
CREATE TABLE cafes (id NUMBER PRIMARY KEY, body CLOB);
CREATE INDEX ci ON cafes(body) INDEXTYPE IS CTXSYS.CONTEXT PARAMETERS ('LEXER bl');
INSERT INTO cafes VALUES (1,'CAFÉ café');
EXEC CTX_DDL.SYNC_INDEX('ci');
SELECT id, SCORE(1) FROM cafes WHERE CONTAINS(body,'cafe',1) > 0;
SELECT id, SCORE(1) FROM cafes WHERE CONTAINS(body,'Café',1) > 0;
-- what the index copied stays, also where the preference changes
EXEC CTX_DDL.SET_ATTRIBUTE('bl','base_letter','no');
INSERT INTO cafes VALUES (2,'cafe');
EXEC CTX_DDL.SYNC_INDEX('ci');
SELECT id, SCORE(1) FROM cafes WHERE CONTAINS(body,'café',1) > 0;
