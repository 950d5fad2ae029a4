-- CTX_QUERY.RESULT_SET: counts, hits and groups of the rows that a query finds
CREATE TABLE docs (id NUMBER PRIMARY KEY, body CLOB, price NUMBER);
CREATE INDEX di ON docs(body) INDEXTYPE IS CTXSYS.CONTEXT;
INSERT INTO docs VALUES (1,'red',5);
INSERT INTO docs VALUES (2,'red red',5);
INSERT INTO docs VALUES (3,'red',7);
EXEC CTX_QUERY.RESULT_SET('di','red','count');
EXEC CTX_QUERY.RESULT_SET('di','red','hits 1 to 10 / group price');
EXEC CTX_DDL.SYNC_INDEX('di');
EXEC CTX_QUERY.RESULT_SET('di','red','count / hits 1 to 2 order by score desc / group price');
SELECT id FROM docs ORDER BY price DESC;
-- each part by itself, and one twice; without an order hits come in order of key
EXEC CTX_QUERY.RESULT_SET('di','red','count');
EXEC CTX_QUERY.RESULT_SET('di','red','hits 1 to 100000');
EXEC CTX_QUERY.RESULT_SET('di','red','group id');
EXEC CTX_QUERY.RESULT_SET('di','red','group price / count / group price');
-- pages: the hits of a page are those of the whole order, and past the end there are fewer or none
EXEC CTX_QUERY.RESULT_SET('di','red','hits 1 to 1 order by price desc');
EXEC CTX_QUERY.RESULT_SET('di','red','hits 2 to 3 order by price desc');
EXEC CTX_QUERY.RESULT_SET('di','red','hits 3 to 9 order by price desc');
EXEC CTX_QUERY.RESULT_SET('di','red','hits 4 to 9 order by price desc');
EXEC CTX_QUERY.RESULT_SET('di','red','hits 4 to 9 / count');
-- orders of several keys: ties of the first by the second, of all by the key; the score as any of them
EXEC CTX_QUERY.RESULT_SET('di','red','hits 1 to 3 order by price, score desc');
EXEC CTX_QUERY.RESULT_SET('di','red','hits 1 to 3 order by score, price desc');
EXEC CTX_QUERY.RESULT_SET('di','red','hits 1 to 3 order by score asc, id desc');
EXEC CTX_QUERY.RESULT_SET('di','red','hits 1 to 3 order by price desc, price, score');
-- groups, counts and hits are of all that the query finds, by its score above 0
EXEC CTX_QUERY.RESULT_SET('di','red > 1','count / hits 1 to 9 / group price');
EXEC CTX_QUERY.RESULT_SET('di','red*2','hits 1 to 9');
EXEC CTX_QUERY.RESULT_SET('di','red NOT red','count / hits 1 to 9 / group price');
EXEC CTX_QUERY.RESULT_SET('di','...','hits 1 to 9');
-- texts as values of groups: in the order of their bytes, with signs escaped; numbers in theirs
CREATE TABLE items (id NUMBER PRIMARY KEY, title VARCHAR2(40), kind VARCHAR2(20), n NUMBER);
CREATE INDEX ii ON items(title) INDEXTYPE IS CONTEXT;
INSERT INTO items VALUES (-1,'lamp','b',10);
INSERT INTO items VALUES (2,'lamp lamp','B',-2);
INSERT INTO items VALUES (3,'lamp lamp lamp','a|b',9);
INSERT INTO items VALUES (4,'lamp','',10);
INSERT INTO items VALUES (5,'lamp','back\slash',-2);
INSERT INTO items VALUES (6,'lamp','é',9);
INSERT INTO items VALUES (7,'lamp','ab',100);
INSERT INTO items VALUES (8,'chair','b',100);
EXEC CTX_DDL.SYNC_INDEX('ii');
EXEC CTX_QUERY.RESULT_SET('II','lamp','group kind / group n');
EXEC CTX_QUERY.RESULT_SET('ii','lamp','hits 2 to 5 order by kind');
EXEC CTX_QUERY.RESULT_SET('ii','lamp','hits 1 to 3 order by n desc, kind desc');
EXEC CTX_QUERY.RESULT_SET('ii','lamp OR chair','count/group title');
-- rows that wait aren't found; a row's other columns are as they are now
UPDATE items SET title='lamp' WHERE id = 3;
UPDATE items SET n=1 WHERE id < 3;
EXEC CTX_QUERY.RESULT_SET('ii','lamp','count / group n');
DELETE FROM items WHERE kind >= 'b';
EXEC CTX_QUERY.RESULT_SET('ii','lamp','count / hits 1 to 10 order by score desc, n');
