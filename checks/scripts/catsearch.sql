-- CATSEARCH: rows by the words of a text and by other columns, each as it is now, without a synchronisation
EXEC CTX_DDL.CREATE_INDEX_SET('iset');
EXEC CTX_DDL.ADD_INDEX('iset','price');
CREATE TABLE items (id NUMBER PRIMARY KEY, title VARCHAR2(100), price NUMBER);
CREATE INDEX ci ON items(title) INDEXTYPE IS CTXSYS.CTXCAT PARAMETERS ('INDEX SET iset');
INSERT INTO items VALUES (1,'red car',9);
INSERT INTO items VALUES (2,'red blue',3);
INSERT INTO items VALUES (3,'Red hat',1);
INSERT INTO items VALUES (4,'red hat',10);
SELECT id FROM items WHERE CATSEARCH(title,'red - blue','price BETWEEN 1 AND 9 ORDER BY price') > 0;
DELETE FROM items WHERE id = 3;
SELECT id FROM items WHERE CATSEARCH(title,'red - blue','price BETWEEN 1 AND 9 ORDER BY price') > 0;
SELECT id FROM items WHERE CATSEARCH(title,'red-blue',NULL) > 0;
SELECT id FROM items WHERE CATSEARCH(title,'red','id = 1') > 0;
SELECT id FROM items WHERE CATSEARCH(title,'*ed',NULL) > 0;
SELECT id FROM items WHERE CATSEARCH(title,'h*t',NULL) > 0;
UPDATE items SET title='red' WHERE id = 4;
SELECT id FROM items WHERE CATSEARCH(title,'h*t',NULL) > 0;
-- of a column without a catalogue, also where a CONTEXT index is on it
CREATE TABLE docs (id NUMBER PRIMARY KEY, body CLOB, price NUMBER);
SELECT id FROM docs WHERE CATSEARCH(body,'a',NULL) > 0;
CREATE INDEX di ON docs(body) INDEXTYPE IS CTXSYS.CONTEXT;
SELECT id FROM docs WHERE CATSEARCH(body,'a',NULL) > 0;
SELECT id FROM items WHERE CONTAINS(title,'red') > 0;
SELECT id FROM items WHERE CATSEARCH(price,'a',NULL) > 0;
DROP TABLE items;
SELECT id FROM items WHERE CATSEARCH(title,'red',NULL) > 0;
-- a catalogue whose words and sub-indexes are told by preferences: a hyphen and accents don't count, and neither does `the`
EXEC CTX_DDL.CREATE_PREFERENCE('lx','BASIC_LEXER');
EXEC CTX_DDL.SET_ATTRIBUTE('lx','skipjoins','-');
EXEC CTX_DDL.SET_ATTRIBUTE('lx','base_letter','YES');
EXEC CTX_DDL.CREATE_STOPLIST('sl');
EXEC CTX_DDL.ADD_STOPWORD('sl','the');
EXEC CTX_DDL.ADD_INDEX('iset','shop,price');
CREATE TABLE goods (id NUMBER PRIMARY KEY, title VARCHAR2(100), shop VARCHAR2(20), price NUMBER, note CLOB);
INSERT INTO goods VALUES (10,'The red lamp','north',20,'');
INSERT INTO goods VALUES (11,'Lamp, red','South',20,'');
CREATE INDEX gi ON goods(title) INDEXTYPE IS CTXCAT PARAMETERS ('LEXER lx STOPLIST sl INDEX SET iset');
INSERT INTO goods VALUES (12,'lamp of the red room','north',5,'');
INSERT INTO goods VALUES (13,'E-bike lamp','north',20,'');
INSERT INTO goods VALUES (14,'ebike café','été',-7,'');
INSERT INTO goods VALUES (15,'red red CAFÉ','south',20,'');
INSERT INTO goods VALUES (16,'lamp over the room','north',20,'');
INSERT INTO goods VALUES (17,'the','north',1,'');
INSERT INTO goods VALUES (-3,'lamplight','',0,'');
-- words side by side, without an order; each row once, however often it has a word
SELECT id FROM goods WHERE CATSEARCH(title,'red',NULL) > 0;
SELECT id FROM goods WHERE CATSEARCH(title,'lamp red',NULL) > 0;
SELECT COUNT(*) FROM goods WHERE CATSEARCH(title,'LAMP Rèd',NULL) > 0;
SELECT title, price FROM goods WHERE CATSEARCH(title,'e-bike',NULL) > 0;
SELECT COUNT(*) FROM goods WHERE CATSEARCH(title,'bicycle',NULL) > 0;
-- phrases, in which a stopword takes any word; `-` and `|`, and parentheses
SELECT id FROM goods WHERE CATSEARCH(title,'"red lamp"',NULL) > 0;
SELECT id FROM goods WHERE CATSEARCH(title,'"red, lamp" | "lamp (red"',NULL) > 0;
SELECT id FROM goods WHERE CATSEARCH(title,'"of the red"',NULL) > 0;
SELECT id FROM goods WHERE CATSEARCH(title,'"lamp the the room"',NULL) > 0;
SELECT id FROM goods WHERE CATSEARCH(title,'"lamp the the the room"',NULL) > 0;
SELECT id FROM goods WHERE CATSEARCH(title,'lamp - red',NULL) > 0;
SELECT id FROM goods WHERE CATSEARCH(title,'lamp - red - room',NULL) > 0;
SELECT id FROM goods WHERE CATSEARCH(title,'lamp - (red - room)',NULL) > 0;
SELECT id FROM goods WHERE CATSEARCH(title,'ebike | red - lamp',NULL) > 0;
SELECT id FROM goods WHERE CATSEARCH(title,'(ebike|red)cafe',NULL) > 0;
SELECT id FROM goods WHERE CATSEARCH(title,'lamp - "red lamp" - "lamp red"',NULL) > 0;
-- wildcards: any characters, or none; within a word, and not between quotes
SELECT id FROM goods WHERE CATSEARCH(title,'lamp*',NULL) > 0;
SELECT id FROM goods WHERE CATSEARCH(title,'l*t',NULL) > 0;
SELECT id FROM goods WHERE CATSEARCH(title,'e-b*k*e ca*fé*',NULL) > 0;
SELECT id FROM goods WHERE CATSEARCH(title,'r**d - lam*p',NULL) > 0;
SELECT id FROM goods WHERE CATSEARCH(title,'"lamp*"',NULL) > 0;
SELECT id FROM goods WHERE CATSEARCH(title,'lam_ | lam% | \lamp',NULL) > 0;
-- stopwords and what has no words at all find nothing, and are left out beside others
SELECT id FROM goods WHERE CATSEARCH(title,'the',NULL) > 0;
SELECT id FROM goods WHERE CATSEARCH(title,'the - lamp | "" | (-) | +',NULL) > 0;
SELECT id FROM goods WHERE CATSEARCH(title,'the cafe "" - the - +',NULL) > 0;
-- structured queries: conditions and orders. Texts are compared by their bytes, and rows of the same values come by their keys
SELECT id, price FROM goods WHERE CATSEARCH(title,'lamp*','ORDER BY price') > 0;
SELECT id, price FROM goods WHERE CATSEARCH(title,'lamp*','order by PRICE desc') > 0;
SELECT id, shop, price FROM goods WHERE CATSEARCH(title,'lamp* | red | ebike','ORDER BY price DESC, shop') > 0;
SELECT id, shop, price FROM goods WHERE CATSEARCH(title,'lamp* | red | ebike','shop > '''' ORDER BY shop DESC, price ASC, shop') > 0;
SELECT id FROM goods WHERE CATSEARCH(title,'lamp','shop = ''north'' AND price BETWEEN 0 AND 20 -- cheap ones
 AND price > -9223372036854775808 ORDER BY price') > 0;
SELECT id FROM goods WHERE CATSEARCH(title,'lamp*','price IN (0, 5, 007, -7)') > 0;
SELECT id FROM goods WHERE CATSEARCH(title,'lamp','price BETWEEN 20 AND 5') > 0;
SELECT id FROM goods WHERE CATSEARCH(title,'ebike','') > 00;
SELECT id FROM goods WHERE CATSEARCH(title,'ebike',' -- nothing asked') > 0;
-- conditions of the statement may be of any column, and come beside those of the structured query
SELECT id FROM goods WHERE id > 11 AND CATSEARCH(title,'lamp','price = 20 ORDER BY shop') > 0 AND shop = 'north';
SELECT * FROM goods WHERE CATSEARCH(title,'"red lamp"',NULL) > 0;
-- rows as they are now
UPDATE goods SET title = 'blue lamp' WHERE id = 10;
SELECT id FROM goods WHERE CATSEARCH(title,'red lamp',NULL) > 0;
SELECT id FROM goods WHERE CATSEARCH(title,'blue','price = 20') > 0;
UPDATE goods SET price = price;
UPDATE goods SET price = 4 WHERE shop = 'north' AND price > 4;
SELECT id FROM goods WHERE CATSEARCH(title,'lamp','ORDER BY price, shop DESC') > 0;
SELECT id FROM goods WHERE CATSEARCH(title,'lamp','price = 20') > 0;
UPDATE goods SET note = 'sold' WHERE id = 13;
DELETE FROM goods WHERE id IN (10, 11);
INSERT INTO goods VALUES (11,'lamp','west',4,'');
SELECT id, shop FROM goods WHERE CATSEARCH(title,'lamp','price < 5 ORDER BY shop DESC') > 0;
SELECT * FROM ctx_user_pending;
-- E11 of the table, then of columns in the order of the text, before E27
SELECT nope FROM none WHERE CATSEARCH(nono,'',NULL) > 0;
SELECT nope FROM goods WHERE CATSEARCH(nono,'','') > 0 AND nini = 1;
SELECT id FROM goods WHERE CATSEARCH(note,'|','nope') > 0 AND nini = 1;
-- E27 before E13
SELECT SCORE(1) FROM goods WHERE CATSEARCH(note,'|','nope') > 0 AND price = 'a';
-- E13: a condition of the statement, and a score, which no row of a catalogue has; before E22 of the statement
SELECT id FROM goods WHERE CATSEARCH(title,'|','nope') > 0 AND price = 'a' AND id = 9223372036854775808;
SELECT id FROM goods WHERE CATSEARCH(title,'lamp',NULL) > 0 AND note = 'sold';
SELECT id, SCORE(1) FROM goods WHERE CATSEARCH(title,'lamp',NULL) > 0;
SELECT SCORE(9223372036854775808) FROM goods WHERE CATSEARCH(title,'lamp',NULL) > 0;
SELECT * FROM ctx_user_pending WHERE CATSEARCH(title,'lamp',NULL) > 0;
-- E22 of the statement, then the faults of the query text, then those of the structured query
SELECT id FROM goods WHERE CATSEARCH(title,'|','nope') > 0 AND id = 9223372036854775808;
SELECT id FROM goods WHERE CATSEARCH(title,'((((((((((((((((((((((((((((((((( |','nope') > 0;
SELECT id FROM goods WHERE CATSEARCH(title,'|','nope') > 0;
SELECT id FROM goods WHERE CATSEARCH(title,'the','nope') > 0;
SELECT id FROM goods WHERE CATSEARCH(title,'the','price > 9223372036854775808 AND') > 0;
SELECT id FROM goods WHERE CATSEARCH(title,'lamp','note = 1 ORDER nope') > 0;
-- E33 of a column in no sub-index, be it in the table or not, and E13 of a value, in the order of the text
SELECT id FROM goods WHERE CATSEARCH(title,'the','price = 1 ORDER BY Note') > 0;
SELECT id FROM goods WHERE CATSEARCH(title,'the','ORDER BY price, nope, id') > 0;
SELECT id FROM goods WHERE CATSEARCH(title,'the','shop = 1 AND nope = 1') > 0;
SELECT id FROM goods WHERE CATSEARCH(title,'the','nope = 1 AND shop = 1') > 0;
SELECT id FROM goods WHERE CATSEARCH(title,'the','price IN (1, 2, ''3'') ORDER BY nope') > 0;
SELECT id FROM goods WHERE CATSEARCH(title,'the','price BETWEEN ''1'' AND 3') > 0;
SELECT id FROM goods WHERE CATSEARCH(title,'the','title = ''lamp''') > 0;
-- query texts that are none: what stands at their first bad place
SELECT id FROM goods WHERE CATSEARCH(title,'',NULL) > 0;
SELECT id FROM goods WHERE CATSEARCH(title,' ',NULL) > 0;
SELECT id FROM goods WHERE CATSEARCH(title,'- lamp',NULL) > 0;
SELECT id FROM goods WHERE CATSEARCH(title,'lamp -',NULL) > 0;
SELECT id FROM goods WHERE CATSEARCH(title,'lamp - | red',NULL) > 0;
SELECT id FROM goods WHERE CATSEARCH(title,'lamp -red - - x',NULL) > 0;
SELECT id FROM goods WHERE CATSEARCH(title,'lamp ( - red)',NULL) > 0;
SELECT id FROM goods WHERE CATSEARCH(title,'()',NULL) > 0;
SELECT id FROM goods WHERE CATSEARCH(title,'(lamp',NULL) > 0;
SELECT id FROM goods WHERE CATSEARCH(title,'lamp) red',NULL) > 0;
SELECT id FROM goods WHERE CATSEARCH(title,'lamp || red',NULL) > 0;
SELECT id FROM goods WHERE CATSEARCH(title,'lamp "red',NULL) > 0;
SELECT id FROM goods WHERE CATSEARCH(title,'été *ed',NULL) > 0;
SELECT id FROM goods WHERE CATSEARCH(title,'"red"*',NULL) > 0;
SELECT id FROM goods WHERE CATSEARCH(title,'(((((((((((((((((((((((((((((((lamp)))))))))))))))))))))))))))))))',NULL) > 0;
-- structured queries that are none
SELECT id FROM goods WHERE CATSEARCH(title,'lamp','price') > 0;
SELECT id FROM goods WHERE CATSEARCH(title,'lamp','price = 1,') > 0;
SELECT id FROM goods WHERE CATSEARCH(title,'lamp','price = 1 OR shop = 1') > 0;
SELECT id FROM goods WHERE CATSEARCH(title,'lamp','shop = ''été'' ;') > 0;
SELECT id FROM goods WHERE CATSEARCH(title,'lamp','shop = ''') > 0;
SELECT id FROM goods WHERE CATSEARCH(title,'lamp','shop = ''été') > 0;
SELECT id FROM goods WHERE CATSEARCH(title,'lamp','price IN ()') > 0;
SELECT id FROM goods WHERE CATSEARCH(title,'lamp','ORDER BY price,') > 0;
SELECT id FROM goods WHERE CATSEARCH(title,'lamp','ORDER BY price WHERE shop = 1') > 0;
SELECT id FROM goods WHERE CATSEARCH(title,'lamp','price = - 9223372036854775809') > 0;
SELECT id FROM goods WHERE CATSEARCH(title,'lamp','price = NULL') > 0;
-- statements that are none: another number, other arguments, a second search, an order of the statement
SELECT id FROM goods WHERE CATSEARCH(title,'lamp',NULL) > 1;
SELECT id FROM goods WHERE CATSEARCH(title,'lamp') > 0;
SELECT id FROM goods WHERE CATSEARCH(title,'lamp',price < 5) > 0;
SELECT id FROM goods WHERE CATSEARCH(title,NULL,NULL) > 0;
SELECT id FROM goods WHERE CATSEARCH(title,'lamp',NULL) > 0 AND CATSEARCH(title,'red',NULL) > 0;
SELECT id FROM goods WHERE CATSEARCH(title,'lamp',NULL) > 0 AND CONTAINS(title,'red') > 0;
SELECT id FROM goods WHERE CATSEARCH(title,'lamp',NULL) > 0 ORDER BY price;
-- the plain sub-index alone, beside a CONTEXT index on the same column, which has the rows only when it is synchronised
DROP INDEX gi;
SELECT id FROM goods WHERE CATSEARCH(title,'lamp',NULL) > 0;
CREATE INDEX ti ON goods(title) INDEXTYPE IS CONTEXT;
CREATE INDEX gi ON goods(title) INDEXTYPE IS CTXCAT;
INSERT INTO goods VALUES (18,'the lamp','west',2,'');
SELECT id FROM goods WHERE CATSEARCH(title,'the lamp',NULL) > 0;
SELECT id FROM goods WHERE CONTAINS(title,'the AND lamp') > 0;
SELECT id FROM goods WHERE CATSEARCH(title,'the','price = 1') > 0;
SELECT id FROM goods WHERE CATSEARCH(title,'ebike',NULL) > 0;
SELECT id FROM goods WHERE CATSEARCH(title,'e-bike',NULL) > 0;
SELECT id FROM goods WHERE CATSEARCH(title,'"e bike"',NULL) > 0;
SELECT id FROM goods WHERE CATSEARCH(title,'bike-e',NULL) > 0;
-- a text that is set and a row that goes, in both
UPDATE goods SET title = 'the old lamp' WHERE id = 18;
DELETE FROM goods WHERE id = 12;
SELECT id FROM goods WHERE CATSEARCH(title,'lamp','') > 0;
SELECT id FROM goods WHERE CONTAINS(title,'lamp') > 0;
DROP TABLE goods;
