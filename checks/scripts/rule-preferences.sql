-- a rule index copies its lexer, its stoplist and its section group: the words of rules and of documents are told by them alike
EXEC CTX_DDL.CREATE_PREFERENCE('lx','BASIC_LEXER');
EXEC CTX_DDL.SET_ATTRIBUTE('lx','base_letter','YES');
EXEC CTX_DDL.SET_ATTRIBUTE('lx','skipjoins','-');
EXEC CTX_DDL.CREATE_STOPLIST('sl');
EXEC CTX_DDL.ADD_STOPWORD('sl','The');
EXEC CTX_DDL.ADD_STOPWORD('sl','of');
EXEC CTX_DDL.CREATE_SECTION_GROUP('g','BASIC_SECTION_GROUP');
EXEC CTX_DDL.ADD_ZONE_SECTION('g','head','H1');
EXEC CTX_DDL.ADD_SPECIAL_SECTION('g','PARAGRAPH');
CREATE TABLE rules (id NUMBER PRIMARY KEY, q CLOB);
INSERT INTO rules VALUES (1,'café');
INSERT INTO rules VALUES (2,'{e-mail}');
INSERT INTO rules VALUES (3,'house of cards');
INSERT INTO rules VALUES (4,'the');
INSERT INTO rules VALUES (5,'the OR of');
INSERT INTO rules VALUES (6,'cards NOT the');
INSERT INTO rules VALUES (7,'the AND house');
INSERT INTO rules VALUES (8,'(cards AND house) WITHIN PARAGRAPH');
INSERT INTO rules VALUES (9,'cards WITHIN SENTENCE');
INSERT INTO rules VALUES (10,'the = cards house');
CREATE INDEX ri ON rules(q) INDEXTYPE IS CTXRULE PARAMETERS ('section group G stoplist SL lexer LX');
SELECT * FROM CTX_USER_INDEX_ERRORS;
SELECT id FROM rules WHERE MATCHES(q,'Cafe, by E-MAIL') > 0;
SELECT id FROM rules WHERE MATCHES(q,'email in a CAFÉ') > 0;
-- a stopword in a phrase takes any word, one that stands alone finds nothing, and behind NOT it takes nothing away
SELECT id FROM rules WHERE MATCHES(q,'the house of cards') > 0;
SELECT id FROM rules WHERE MATCHES(q,'a house with cards') > 0;
SELECT id FROM rules WHERE MATCHES(q,'the, of') > 0;
SELECT id FROM rules WHERE MATCHES(q,'<h1>Cards</h1> house') > 0;
SELECT id FROM rules WHERE MATCHES(q,'<h2>Cards</h2> house') > 0;
-- two paragraphs
SELECT id FROM rules WHERE MATCHES(q,'A house.

My four cards.') > 0;
-- what is changed later is for indexes that are made later; a rule that is set again is told by what the index has copied
EXEC CTX_DDL.ADD_STOPWORD('sl','cards');
EXEC CTX_DDL.ADD_SPECIAL_SECTION('g','SENTENCE');
EXEC CTX_DDL.SET_ATTRIBUTE('lx','base_letter','NO');
UPDATE rules SET q='cards WITHIN SENTENCE' WHERE id = 9;
UPDATE rules SET q='Café cards' WHERE id = 1;
EXEC CTX_DDL.SYNC_INDEX('ri');
SELECT * FROM CTX_USER_INDEX_ERRORS;
SELECT id FROM rules WHERE MATCHES(q,'cafe cards') > 0;
DROP INDEX ri;
CREATE INDEX ri ON rules(q) INDEXTYPE IS CTXRULE PARAMETERS ('STOPLIST sl LEXER lx SECTION GROUP g');
SELECT * FROM CTX_USER_INDEX_ERRORS;
SELECT id FROM rules WHERE MATCHES(q,'cafe cards') > 0;
SELECT id FROM rules WHERE MATCHES(q,'café cards') > 0;
-- the section of a rule has to be one of the group when the rule is taken in
CREATE TABLE plain (id NUMBER PRIMARY KEY, q CLOB);
INSERT INTO plain VALUES (1,'cards WITHIN head');
INSERT INTO plain VALUES (2,'{<h1>} OR cards');
CREATE INDEX pi ON plain(q) INDEXTYPE IS CTXRULE;
SELECT * FROM CTX_USER_INDEX_ERRORS;
SELECT id FROM plain WHERE MATCHES(q,'an h1') > 0;
