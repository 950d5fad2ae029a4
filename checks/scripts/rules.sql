-- MATCHES: the rules that hold of a document; each rule is the text of a row
CREATE TABLE rules (id NUMBER PRIMARY KEY, q VARCHAR2(200));
INSERT INTO rules VALUES (1,'a OR b');
INSERT INTO rules VALUES (2,'a NOT b');
INSERT INTO rules VALUES (3,'(a');
CREATE INDEX ri ON rules(q) INDEXTYPE IS CTXSYS.CTXRULE;
SELECT * FROM CTX_USER_INDEX_ERRORS;
SELECT id FROM rules WHERE MATCHES(q,'b c') > 0;
SELECT id FROM rules WHERE MATCHES(q,'a c') > 0;
UPDATE rules SET q='zz' WHERE id = 1;
SELECT id FROM rules WHERE MATCHES(q,'a c') > 0;
SELECT id FROM rules WHERE MATCHES(q,'zz') > 0;
SELECT * FROM CTX_USER_PENDING;
EXEC CTX_DDL.SYNC_INDEX('ri');
SELECT id FROM rules WHERE MATCHES(q,'zz') > 0;
DELETE FROM rules WHERE id = 1;
SELECT id FROM rules WHERE MATCHES(q,'zz') > 0;
DROP INDEX ri;
SELECT id FROM rules WHERE MATCHES(q,'a') > 0;
SELECT * FROM CTX_USER_INDEX_ERRORS;
-- without an index type's owner; rows that come behind the index wait
CREATE TABLE alerts (id NUMBER PRIMARY KEY, owner VARCHAR2(20), rule CLOB, level NUMBER);
CREATE INDEX ai ON alerts(rule) INDEXTYPE IS CTXRULE;
SELECT id FROM alerts WHERE MATCHES(rule,'fire') > 0;
INSERT INTO alerts VALUES (7,'ann','fire AND roof',2);
INSERT INTO alerts VALUES (-3,'bob','fire',1);
INSERT INTO alerts VALUES (5,'ann','smoke | fire',2);
INSERT INTO alerts VALUES (9,'cy','water',3);
SELECT id FROM alerts WHERE MATCHES(rule,'a fire in the roof') > 0;
SELECT * FROM CTX_USER_PENDING;
EXEC CTX_DDL.SYNC_INDEX('AI','16M');
SELECT * FROM CTX_USER_PENDING;
SELECT id FROM alerts WHERE MATCHES(rule,'a fire in the roof') > 0;
SELECT id, owner, level FROM alerts WHERE MATCHES(rule,'Fire! On the ROOF.') > 0;
SELECT * FROM alerts WHERE MATCHES(rule,'water') > 0;
SELECT COUNT(*) FROM alerts WHERE MATCHES(rule,'fire roof') > 0;
SELECT COUNT(*) FROM alerts WHERE MATCHES(rule,'earth') > 0;
-- conditions, before MATCHES and behind it, and orders
SELECT id FROM alerts WHERE MATCHES(rule,'fire roof') > 0 AND level = 2;
SELECT id FROM alerts WHERE owner = 'ann' AND MATCHES(rule,'fire roof') > 00 AND id > 5;
SELECT id FROM alerts WHERE MATCHES(rule,'fire roof') > 0 ORDER BY level DESC;
SELECT id FROM alerts WHERE MATCHES(rule,'fire roof') > 0 ORDER BY owner DESC, id DESC;
-- a document without a word, and one of words that no rule has
SELECT id FROM alerts WHERE MATCHES(rule,'') > 0;
SELECT id FROM alerts WHERE MATCHES(rule,'...') > 0;
SELECT id FROM alerts WHERE MATCHES(rule,'earth, wind') > 0;
-- a row whose rule is set waits, also where it is set to what it was; one whose other columns are set doesn't
UPDATE alerts SET level=9 WHERE id = 5;
SELECT id, level FROM alerts WHERE MATCHES(rule,'smoke') > 0;
UPDATE alerts SET rule='smoke | fire' WHERE id = 5;
SELECT id FROM alerts WHERE MATCHES(rule,'smoke') > 0;
SELECT * FROM CTX_USER_PENDING;
EXEC CTX_DDL.SYNC_INDEX('ai');
SELECT id FROM alerts WHERE MATCHES(rule,'smoke') > 0;
-- what waits and is deleted waits no more
UPDATE alerts SET rule='earth' WHERE level > 1;
SELECT COUNT(*) FROM CTX_USER_PENDING;
DELETE FROM alerts WHERE owner = 'ann';
SELECT * FROM CTX_USER_PENDING;
EXEC CTX_DDL.SYNC_INDEX('ai');
SELECT id FROM alerts WHERE MATCHES(rule,'earth and fire') > 0;
-- a rule index and a CONTEXT index on one column: each has its own rows that wait
CREATE INDEX ti ON alerts(rule) INDEXTYPE IS CONTEXT;
INSERT INTO alerts VALUES (1,'dee','earth AND water',1);
SELECT * FROM CTX_USER_PENDING;
EXEC CTX_DDL.SYNC_INDEX('ti');
SELECT id FROM alerts WHERE CONTAINS(rule,'earth') > 0;
SELECT id FROM alerts WHERE MATCHES(rule,'water, earth') > 0;
EXEC CTX_DDL.SYNC_INDEX('ai');
SELECT id FROM alerts WHERE MATCHES(rule,'water, earth') > 0;
UPDATE alerts SET rule='fire NOT smoke' WHERE id = 1;
SELECT * FROM CTX_USER_PENDING;
EXEC CTX_DDL.SYNC_INDEX('ai');
SELECT id FROM alerts WHERE MATCHES(rule,'fire') > 0;
SELECT id FROM alerts WHERE CONTAINS(rule,'not') > 0;
SELECT id FROM alerts WHERE CONTAINS(rule,'{not}') > 0;
EXEC CTX_DDL.SYNC_INDEX('ti');
SELECT id FROM alerts WHERE CONTAINS(rule,'{not}') > 0;
-- all three kinds on one column; DROP INDEX takes one of them, and DROP TABLE the others
CREATE INDEX ci ON alerts(rule) INDEXTYPE IS CTXCAT;
SELECT id FROM alerts WHERE CATSEARCH(rule,'smoke',NULL) > 0;
DROP INDEX ti;
SELECT id FROM alerts WHERE MATCHES(rule,'fire') > 0;
DROP TABLE alerts;
EXEC CTX_DDL.SYNC_INDEX('ai');
