-- the refusals of MATCHES, each before each that comes behind it
CREATE TABLE alerts (id NUMBER PRIMARY KEY, rule VARCHAR2(40), note CLOB, level NUMBER);
CREATE INDEX ai ON alerts(rule) INDEXTYPE IS CTXRULE;
CREATE INDEX ni ON alerts(note) INDEXTYPE IS CONTEXT;
INSERT INTO alerts VALUES (1,'fire','a note',1);
EXEC CTX_DDL.SYNC_INDEX('ai');
SELECT id FROM alerts WHERE MATCHES(rule,'fire') > 0;
-- E10, a statement that isn't understood
SELECT nope FROM alerts WHERE MATCHES(rule,'fire') > 1;
SELECT id FROM alerts WHERE MATCHES(rule,'fire');
SELECT id FROM alerts WHERE MATCHES(rule,'fire') >= 0;
SELECT id FROM alerts WHERE MATCHES(rule,'fire') > -0;
SELECT id FROM alerts WHERE MATCHES(rule,'fire') > 9223372036854775808;
SELECT id FROM alerts WHERE MATCHES(rule,'fire',1) > 0;
SELECT id FROM alerts WHERE MATCHES(rule,'fire',NULL) > 0;
SELECT id FROM alerts WHERE MATCHES(rule,NULL) > 0;
SELECT id FROM alerts WHERE MATCHES('rule','fire') > 0;
SELECT id FROM alerts WHERE MATCHES(rule,'fire') > 0 OR id = 1;
SELECT id FROM alerts WHERE MATCHES(rule,'fire') > 0 AND MATCHES(rule,'smoke') > 0;
SELECT id FROM alerts WHERE MATCHES(rule,'fire') > 0 AND CONTAINS(note,'note') > 0;
SELECT MATCHES(1) FROM alerts WHERE MATCHES(rule,'fire') > 0;
SELECT id FROM alerts WHERE MATCHES(rule,'fire') > 0 ORDER BY MATCHES(1);
DELETE FROM alerts WHERE MATCHES(rule,'fire') > 0;
-- E11, a name that isn't there: the table, then columns in the order of the text
SELECT nope FROM none WHERE MATCHES(nono,'fire') > 0;
SELECT id FROM alerts WHERE MATCHES(nope,'fire') > 0;
SELECT id, nope FROM alerts WHERE MATCHES(nono,'fire') > 0;
SELECT id FROM alerts WHERE MATCHES(level,'fire') > 0 AND nope = 1;
SELECT id FROM alerts WHERE MATCHES(rule,'fire') > 0 ORDER BY nope;
SELECT SCORE(1), nope FROM alerts WHERE MATCHES(note,'fire') > 0;
SELECT id FROM ctx_user_pending WHERE MATCHES(rule,'fire') > 0;
-- E27, a column without an index of rules: be it without any, with one of another kind, or of numbers
SELECT id FROM alerts WHERE MATCHES(note,'fire') > 0;
SELECT id FROM alerts WHERE MATCHES(level,'fire') > 0;
SELECT id FROM alerts WHERE CONTAINS(rule,'fire') > 0;
SELECT id FROM alerts WHERE CATSEARCH(rule,'fire',NULL) > 0;
SELECT SCORE(1) FROM alerts WHERE MATCHES(note,'fire') > 0;
SELECT id FROM alerts WHERE MATCHES(note,'fire') > 0 AND level = 'a';
-- E13, a score, which MATCHES has none of; a value of another type; a CLOB
SELECT id, SCORE(1) FROM alerts WHERE MATCHES(rule,'fire') > 0;
SELECT id FROM alerts WHERE MATCHES(rule,'fire') > 0 ORDER BY SCORE(1);
SELECT id FROM alerts WHERE MATCHES(rule,'fire') > 0 AND level = 'a';
SELECT id FROM alerts WHERE MATCHES(rule,'fire') > 0 AND note = 'a note';
SELECT id FROM alerts WHERE MATCHES(rule,'fire') > 0 ORDER BY note;
SELECT id FROM alerts WHERE MATCHES(rule,'fire') > 0 AND id = 'a' AND level = 9223372036854775808;
-- E22, a number of the statement
SELECT id FROM alerts WHERE MATCHES(rule,'fire') > 0 AND level = 9223372036854775808;
-- a document has no syntax: what would be a fault of a query is no fault here
SELECT id FROM alerts WHERE MATCHES(rule,'(fire AND ? , {') > 0;
-- CREATE INDEX: E11, E12, E13, E30
CREATE INDEX ai ON none(rule) INDEXTYPE IS CTXRULE;
CREATE INDEX ai ON alerts(nope) INDEXTYPE IS CTXRULE PARAMETERS ('LEXER lx');
CREATE INDEX ai ON alerts(rule) INDEXTYPE IS CTXRULE PARAMETERS ('STOPLIST sl LEXER lx');
CREATE INDEX ai ON alerts(level) INDEXTYPE IS CTXRULE;
CREATE INDEX aj ON alerts(rule) INDEXTYPE IS CTXRULE;
CREATE INDEX aj ON alerts(rule) INDEXTYPE IS CTXRULE PARAMETERS ('TRANSACTIONAL');
CREATE INDEX aj ON alerts(level) INDEXTYPE IS CTXRULE PARAMETERS ('TRANSACTIONAL');
CREATE INDEX aj ON alerts(note) INDEXTYPE IS CTXRULE PARAMETERS ('TRANSACTIONAL');
CREATE INDEX aj ON alerts(note) INDEXTYPE IS CTXRULE PARAMETERS ('INDEX SET iset');
CREATE INDEX aj ON alerts(note) INDEXTYPE IS CTXRULE PARAMETERS ('SECTION GROUP ctxsys.null_section_group stoplist CTXSYS.EMPTY_STOPLIST LEXER CTXSYS.DEFAULT_LEXER');
-- the note of the row is a rule now, of two words side by side
SELECT id FROM alerts WHERE MATCHES(note,'it is a note') > 0;
-- SYNC_INDEX: E11, E27 of a catalogue index, E13, E30
CREATE INDEX ci ON alerts(note) INDEXTYPE IS CTXCAT;
EXEC CTX_DDL.SYNC_INDEX('ak');
EXEC CTX_DDL.SYNC_INDEX('ci',1);
EXEC CTX_DDL.SYNC_INDEX('aj',1);
EXEC CTX_DDL.SYNC_INDEX('aj','16');
EXEC CTX_DDL.SYNC_INDEX('aj','16k');
-- a table has at most sixteen indexes, those of rules among them
CREATE TABLE wide (id NUMBER PRIMARY KEY, a VARCHAR2(9), b VARCHAR2(9), c VARCHAR2(9), d VARCHAR2(9), e VARCHAR2(9), f VARCHAR2(9));
CREATE INDEX r1 ON wide(a) INDEXTYPE IS CTXRULE;
CREATE INDEX r2 ON wide(b) INDEXTYPE IS CTXRULE;
CREATE INDEX r3 ON wide(c) INDEXTYPE IS CTXRULE;
CREATE INDEX r4 ON wide(d) INDEXTYPE IS CTXRULE;
CREATE INDEX r5 ON wide(e) INDEXTYPE IS CTXRULE;
CREATE INDEX r6 ON wide(f) INDEXTYPE IS CTXRULE;
CREATE INDEX t1 ON wide(a) INDEXTYPE IS CONTEXT;
CREATE INDEX t2 ON wide(b) INDEXTYPE IS CONTEXT;
CREATE INDEX t3 ON wide(c) INDEXTYPE IS CONTEXT;
CREATE INDEX t4 ON wide(d) INDEXTYPE IS CONTEXT;
CREATE INDEX t5 ON wide(e) INDEXTYPE IS CONTEXT;
CREATE INDEX t6 ON wide(f) INDEXTYPE IS CONTEXT;
CREATE INDEX c1 ON wide(a) INDEXTYPE IS CTXCAT;
CREATE INDEX c2 ON wide(b) INDEXTYPE IS CTXCAT;
CREATE INDEX c3 ON wide(c) INDEXTYPE IS CTXCAT;
DROP INDEX r6;
CREATE INDEX c4 ON wide(d) INDEXTYPE IS CTXCAT;
CREATE INDEX r6 ON wide(f) INDEXTYPE IS CTXRULE;
CREATE INDEX c5 ON wide(e) INDEXTYPE IS CTXCAT;
INSERT INTO wide VALUES (1,'x','x AND','y','z','','x x');
SELECT COUNT(*) FROM CTX_USER_PENDING;
EXEC CTX_DDL.SYNC_INDEX('r1');
EXEC CTX_DDL.SYNC_INDEX('r2');
EXEC CTX_DDL.SYNC_INDEX('r5');
SELECT * FROM CTX_USER_INDEX_ERRORS;
SELECT id FROM wide WHERE MATCHES(a,'x') > 0;
SELECT id FROM wide WHERE MATCHES(c,'y') > 0;
