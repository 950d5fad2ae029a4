-- what a rule may be: each operator of a query text, on one document after the other
EXEC CTX_DDL.CREATE_SECTION_GROUP('g','BASIC_SECTION_GROUP');
EXEC CTX_DDL.ADD_ZONE_SECTION('g','head','H1');
EXEC CTX_DDL.ADD_FIELD_SECTION('g','maker','MAKER');
EXEC CTX_DDL.ADD_SPECIAL_SECTION('g','SENTENCE');
CREATE TABLE rules (id NUMBER PRIMARY KEY, q VARCHAR2(200));
INSERT INTO rules VALUES (1,'red AND lamp');
INSERT INTO rules VALUES (2,'red lamp');
INSERT INTO rules VALUES (3,'red = blue lamp');
INSERT INTO rules VALUES (4,'red - lamp');
INSERT INTO rules VALUES (5,'red > 1');
INSERT INTO rules VALUES (6,'NEAR((red,lamp),2)');
INSERT INTO rules VALUES (7,'NEAR((red,lamp),2,TRUE)');
INSERT INTO rules VALUES (8,'lam%');
INSERT INTO rules VALUES (9,'%');
INSERT INTO rules VALUES (10,'lamp WITHIN head');
INSERT INTO rules VALUES (11,'acme WITHIN maker');
INSERT INTO rules VALUES (12,'(red AND lamp) WITHIN SENTENCE');
INSERT INTO rules VALUES (13,'DEFINESCORE(lamp, 0 - 5)');
INSERT INTO rules VALUES (14,'red*0.1');
INSERT INTO rules VALUES (15,'lamp NOT red');
INSERT INTO rules VALUES (16,'% NOT red');
INSERT INTO rules VALUES (17,'red ; lamp');
INSERT INTO rules VALUES (18,'b_ue');
INSERT INTO rules VALUES (19,'red*0.1 > 1');
INSERT INTO rules VALUES (20,'{red-lamp}');
CREATE INDEX ri ON rules(q) INDEXTYPE IS CTXSYS.CTXRULE PARAMETERS ('SECTION GROUP g');
SELECT * FROM CTX_USER_INDEX_ERRORS;
-- red AND lamp; the phrase, also as one braced text; red = blue lamp; NEAR both ways; lam%; %; one sentence; the sum is 1 at least; ceil(0.1) is 1
SELECT id FROM rules WHERE MATCHES(q,'a Red lamp') > 0;
-- no phrase; the distance from lamp to red is 2
SELECT id FROM rules WHERE MATCHES(q,'lamp in red') > 0;
-- two times red and one lamp: 2 - 1 is 1; red is above 1; two tenths of 1 are 1 rounded up, which isn't above 1
SELECT id FROM rules WHERE MATCHES(q,'red, red. A lamp') > 0;
SELECT id FROM rules WHERE MATCHES(q,'red red red red red red red red red red red') > 0;
SELECT id FROM rules WHERE MATCHES(q,'blue lamps, a blue lamp') > 0;
SELECT id FROM rules WHERE MATCHES(q,'<h1>Lamps</h1> by <MAKER>Acme</MAKER>') > 0;
SELECT id FROM rules WHERE MATCHES(q,'<H1>A lamp</H1> by <x>Acme</x>') > 0;
-- a field's words are in no other stream: a document of them alone has no word for %
SELECT id FROM rules WHERE MATCHES(q,'<MAKER>red acme lamp</MAKER>') > 0;
-- a document without red and without lamp
SELECT id FROM rules WHERE MATCHES(q,'green') > 0;
SELECT id FROM rules WHERE MATCHES(q,'-') > 0;
-- NOT has two sides in this language; a rule for all documents without a word is % NOT it
INSERT INTO rules VALUES (21,'NOT red');
EXEC CTX_DDL.SYNC_INDEX('ri');
SELECT * FROM CTX_USER_INDEX_ERRORS;
