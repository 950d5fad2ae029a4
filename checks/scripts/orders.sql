-- ORDER BY of a SELECT: by numbers, texts, the key and scores, up and down
CREATE TABLE docs (id NUMBER PRIMARY KEY, body CLOB, title VARCHAR2(20), price NUMBER);
INSERT INTO docs VALUES (4,'fox fox fox','b',5);
INSERT INTO docs VALUES (-2,'fox','a',5);
INSERT INTO docs VALUES (3,'fox fox','B',-7);
INSERT INTO docs VALUES (9,'dog','',9223372036854775807);
INSERT INTO docs VALUES (1,'fox','ab',-9223372036854775808);
INSERT INTO docs VALUES (7,'Fox, fox','é',5);
CREATE INDEX di ON docs(body) INDEXTYPE IS CTXSYS.CONTEXT;
-- without an order rows come by their keys
SELECT id FROM docs;
-- by a number; rows of one value come by rising keys, both up and down
SELECT id FROM docs ORDER BY price;
SELECT id FROM docs ORDER BY price ASC;
select ID from DOCS order by Price desc;
-- by a text, whose bytes count: the empty one is the least, capitals come first, a longer text behind its beginning
SELECT id FROM docs ORDER BY title;
SELECT id, title FROM docs ORDER BY title DESC;
-- by the key
SELECT id FROM docs ORDER BY id;
SELECT id FROM docs ORDER BY id DESC;
-- by several items, the first of which counts first; a column that comes once more changes nothing, nor does one behind the key
SELECT id FROM docs ORDER BY price DESC, id DESC;
SELECT id FROM docs ORDER BY price, title DESC;
SELECT id FROM docs ORDER BY price, price DESC;
SELECT id FROM docs ORDER BY id DESC, price;
-- behind conditions, and of what the list doesn't show
SELECT title, price FROM docs WHERE price = 5 ORDER BY title DESC;
SELECT * FROM docs WHERE id > 3 ORDER BY title;
SELECT price FROM docs WHERE id BETWEEN 1 AND 7 AND price < 5 ORDER BY title;
SELECT id FROM docs WHERE price = 6 ORDER BY title;
-- by scores, alone and among columns, shown or not
SELECT id, SCORE(1) FROM docs WHERE CONTAINS(body,'fox',1) > 0 ORDER BY SCORE(1) DESC;
SELECT id FROM docs WHERE CONTAINS(body,'fox',1) > 0 ORDER BY SCORE(1);
SELECT id FROM docs WHERE CONTAINS(body,'fox',01) > 0 ORDER BY score ( 1 ) DESC, price DESC;
SELECT id FROM docs WHERE CONTAINS(body,'fox',1) > 0 ORDER BY price DESC, SCORE(1);
SELECT id FROM docs WHERE CONTAINS(body,'fox',1) > 0 ORDER BY SCORE(1) DESC, SCORE(1), id DESC;
SELECT title FROM docs WHERE CONTAINS(body,'fox') > 1 ORDER BY title;
SELECT id FROM docs WHERE price > -10 AND CONTAINS(body,'fox',1) > 0 ORDER BY SCORE(1) DESC, title;
-- a number of rows is one line
SELECT COUNT(*) FROM docs ORDER BY price;
SELECT COUNT(*) FROM docs WHERE CONTAINS(body,'fox',1) > 0 ORDER BY SCORE(1) DESC, title;
SELECT COUNT(*) FROM docs WHERE price = 6 ORDER BY id DESC;
-- it replaces the order of a structured query; where there is none that one stays
EXEC CTX_DDL.CREATE_INDEX_SET('iset');
EXEC CTX_DDL.ADD_INDEX('iset','price');
CREATE TABLE items (id NUMBER PRIMARY KEY, title VARCHAR2(100), price NUMBER, ends NUMBER);
CREATE INDEX ci ON items(title) INDEXTYPE IS CTXSYS.CTXCAT PARAMETERS ('INDEX SET iset');
INSERT INTO items VALUES (1,'red car',9,3);
INSERT INTO items VALUES (2,'red blue',3,2);
INSERT INTO items VALUES (3,'Red hat',1,2);
INSERT INTO items VALUES (4,'red hat',10,1);
SELECT id FROM items WHERE CATSEARCH(title,'red','price BETWEEN 1 AND 9 ORDER BY price') > 0;
SELECT id FROM items WHERE CATSEARCH(title,'red','price BETWEEN 1 AND 9 ORDER BY price') > 0 ORDER BY ends;
SELECT id FROM items WHERE CATSEARCH(title,'red','ORDER BY price') > 0 ORDER BY ends DESC;
SELECT id, price FROM items WHERE CATSEARCH(title,'red','ORDER BY price') > 0 ORDER BY price DESC;
SELECT title FROM items WHERE CATSEARCH(title,'red',NULL) > 0 ORDER BY title;
SELECT id FROM items WHERE CATSEARCH(title,'red','ORDER BY price') > 0 AND ends < 3 ORDER BY id DESC;
SELECT COUNT(*) FROM items WHERE CATSEARCH(title,'red','ORDER BY price') > 0 ORDER BY ends;
SELECT id FROM items WHERE CATSEARCH(title,'red','ORDER BY ends') > 0 ORDER BY price;
SELECT id FROM items WHERE CATSEARCH(title,'red',NULL) > 0 ORDER BY SCORE(1);
-- refusals: a name that isn't there, by its place in the text
SELECT id FROM nothing ORDER BY nope;
SELECT id FROM docs ORDER BY nope;
SELECT a FROM docs WHERE b = 1 ORDER BY c;
SELECT id FROM docs WHERE b = 1 ORDER BY c;
SELECT id FROM docs WHERE id = 1 ORDER BY price, c DESC, d;
SELECT COUNT(*) FROM docs ORDER BY SCORE(1), body, nope;
-- a CLOB, and a score that no CONTAINS has
SELECT id FROM docs ORDER BY body;
SELECT COUNT(*) FROM docs ORDER BY title, body DESC;
SELECT id FROM docs ORDER BY SCORE(1);
SELECT id FROM docs WHERE CONTAINS(body,'fox') > 0 ORDER BY SCORE(1);
SELECT id, SCORE(2) FROM docs WHERE CONTAINS(body,'fox',2) > 0 ORDER BY SCORE(1);
SELECT id FROM docs WHERE CONTAINS(body,'fox',1) > 0 ORDER BY SCORE(99999999999999999999);
SELECT id FROM docs WHERE CONTAINS(body,'fox',99999999999999999999) > 0 ORDER BY SCORE(99999999999999999998);
-- behind a missing index, before a number out of range and a bad query text
SELECT id FROM docs WHERE CONTAINS(title,'fox',1) > 0 ORDER BY SCORE(2);
SELECT id FROM docs WHERE CONTAINS(body,'fox',1) > 101 ORDER BY body;
SELECT id FROM docs WHERE CONTAINS(body,'fox (',1) > 0 ORDER BY SCORE(2);
-- the view of what waits takes no ORDER BY
SELECT * FROM ctx_user_pending ORDER BY id;
SELECT COUNT(*) FROM ctx_user_pending ORDER BY nope DESC;
-- no statements
SELECT id FROM docs ORDER BY;
SELECT id FROM docs ORDER id;
SELECT id FROM docs ORDER BY id WHERE id = 1;
SELECT id FROM docs ORDER BY id,;
SELECT id FROM docs ORDER BY id UP;
SELECT id FROM docs ORDER BY id ASC DESC;
SELECT id FROM docs ORDER BY id AND price;
SELECT id FROM docs ORDER BY COUNT(*);
SELECT id FROM docs ORDER BY 1;
SELECT id FROM docs WHERE ORDER BY id;
SELECT id FROM docs ORDER BY id ORDER BY price;
DELETE FROM docs ORDER BY id;
UPDATE docs SET price = 1 ORDER BY id;
