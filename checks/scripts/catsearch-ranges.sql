-- structured queries by which a search goes along a sub-index from one place to another: of one column, and of two
EXEC CTX_DDL.CREATE_INDEX_SET('by_values');
EXEC CTX_DDL.ADD_INDEX('by_values','price');
EXEC CTX_DDL.ADD_INDEX('by_values','kind,price');
EXEC CTX_DDL.ADD_INDEX('by_values','ends,part');
CREATE TABLE lots (id NUMBER PRIMARY KEY, title VARCHAR2(40), kind VARCHAR2(20), price NUMBER, ends NUMBER, part NUMBER);
CREATE INDEX li ON lots(title) INDEXTYPE IS CTXSYS.CTXCAT PARAMETERS ('INDEX SET by_values');
INSERT INTO lots VALUES (1,'red lamp','lamp',5,100,1);
INSERT INTO lots VALUES (2,'red lamp','lamp',-5,200,2);
INSERT INTO lots VALUES (3,'blue lamp','lamps',5,100,3);
INSERT INTO lots VALUES (4,'red lamp','la',0,300,1);
INSERT INTO lots VALUES (5,'lamp','lamp',9223372036854775807,200,2);
INSERT INTO lots VALUES (6,'lamp','',-9223372036854775808,100,3);
INSERT INTO lots VALUES (7,'red table','lamp',5,100,1);
INSERT INTO lots VALUES (8,'lamp red','lamp',6,-100,2);
INSERT INTO lots VALUES (9,'lamp','Lamp',-6,0,3);
INSERT INTO lots VALUES (-1,'red lamp','lamp',5,200,1);
-- one number; rows of the same place but for their keys
SELECT id FROM lots WHERE CATSEARCH(title,'lamp','price = 5') > 0;
SELECT id FROM lots WHERE CATSEARCH(title,'lamp','price = -5') > 0;
SELECT COUNT(*) FROM lots WHERE CATSEARCH(title,'lamp','price = 4') > 0;
-- from a number on, and up to one, where the negative ones come first
SELECT id FROM lots WHERE CATSEARCH(title,'lamp','price < 5') > 0;
SELECT id FROM lots WHERE CATSEARCH(title,'lamp','price <= 5') > 0;
SELECT id FROM lots WHERE CATSEARCH(title,'lamp','price > 5') > 0;
SELECT id FROM lots WHERE CATSEARCH(title,'lamp','price >= 5') > 0;
SELECT id FROM lots WHERE CATSEARCH(title,'lamp','price < -5') > 0;
SELECT id FROM lots WHERE CATSEARCH(title,'lamp','price > -6') > 0;
-- from one number to another, and from the greater one to the lesser
SELECT id FROM lots WHERE CATSEARCH(title,'lamp','price BETWEEN -5 AND 5') > 0;
SELECT id FROM lots WHERE CATSEARCH(title,'lamp','price BETWEEN 5 AND 5') > 0;
SELECT id FROM lots WHERE CATSEARCH(title,'lamp','price BETWEEN 5 AND -5') > 0;
-- of a list from its least number to its greatest; what lies between and isn't in it doesn't count
SELECT id FROM lots WHERE CATSEARCH(title,'lamp','price IN (5, -6)') > 0;
SELECT id FROM lots WHERE CATSEARCH(title,'lamp','price IN (0)') > 0;
SELECT id FROM lots WHERE CATSEARCH(title,'lamp','price IN (-4, 4)') > 0;
-- the ends of the numbers
SELECT id FROM lots WHERE CATSEARCH(title,'lamp','price <= -9223372036854775808') > 0;
SELECT id FROM lots WHERE CATSEARCH(title,'lamp','price < -9223372036854775808') > 0;
SELECT id FROM lots WHERE CATSEARCH(title,'lamp','price > 9223372036854775806') > 0;
SELECT id FROM lots WHERE CATSEARCH(title,'lamp','price > 9223372036854775807') > 0;
SELECT id FROM lots WHERE CATSEARCH(title,'lamp','price BETWEEN -9223372036854775808 AND 9223372036854775807') > 0;
-- several conditions on one column, also such as no number meets
SELECT id FROM lots WHERE CATSEARCH(title,'lamp','price > -6 AND price < 5') > 0;
SELECT id FROM lots WHERE CATSEARCH(title,'lamp','price >= 5 AND price <= 5') > 0;
SELECT id FROM lots WHERE CATSEARCH(title,'lamp','price > 4 AND price < 5') > 0;
SELECT id FROM lots WHERE CATSEARCH(title,'lamp','price = 5 AND price = 6') > 0;
SELECT id FROM lots WHERE CATSEARCH(title,'lamp','price IN (-5, 5, 6) AND price > 5') > 0;
-- a text, which is neither its beginning nor one that goes on behind it, nor one of other letters; the empty one
SELECT id FROM lots WHERE CATSEARCH(title,'lamp','kind = ''lamp''') > 0;
SELECT id FROM lots WHERE CATSEARCH(title,'lamp','kind = ''la''') > 0;
SELECT id FROM lots WHERE CATSEARCH(title,'lamp','kind = ''lamps''') > 0;
SELECT id FROM lots WHERE CATSEARCH(title,'lamp','kind = ''''') > 0;
SELECT id FROM lots WHERE CATSEARCH(title,'lamp','kind = ''LAMP''') > 0;
-- texts by their order, between two and of a list bound no place
SELECT id FROM lots WHERE CATSEARCH(title,'lamp','kind < ''lamp''') > 0;
SELECT id FROM lots WHERE CATSEARCH(title,'lamp','kind >= ''lamp''') > 0;
SELECT id FROM lots WHERE CATSEARCH(title,'lamp','kind BETWEEN ''L'' AND ''lamo''') > 0;
SELECT id FROM lots WHERE CATSEARCH(title,'lamp','kind IN (''la'', ''lamps'')') > 0;
-- two texts, of which a row can have one; and a text longer than any that a sub-index has
SELECT id FROM lots WHERE CATSEARCH(title,'lamp','kind = ''lamp'' AND kind = ''la''') > 0;
SELECT id FROM lots WHERE CATSEARCH(title,'lamp','kind = ''aaaaaaaaaaaaaaaaaaaaaaaaaaaaaaaaaaaaaaaaaaaaaaaaaaaaaaaaaaaaaaaaaaaaaaaaaaaaaaaaaaaaaaaaaaaaaaaaaaaaa''') > 0;
-- a text and numbers behind it, in either order of the conditions
SELECT id FROM lots WHERE CATSEARCH(title,'lamp','kind = ''lamp'' AND price = 5') > 0;
SELECT id FROM lots WHERE CATSEARCH(title,'lamp','price = 5 AND kind = ''lamp''') > 0;
SELECT id FROM lots WHERE CATSEARCH(title,'lamp','kind = ''lamp'' AND price < 6') > 0;
SELECT id FROM lots WHERE CATSEARCH(title,'lamp','kind = ''lamp'' AND price BETWEEN -5 AND 5') > 0;
SELECT id FROM lots WHERE CATSEARCH(title,'lamp','kind = ''la'' AND price = 1') > 0;
SELECT id FROM lots WHERE CATSEARCH(title,'lamp','kind < ''lamp'' AND price < 0') > 0;
SELECT id FROM lots WHERE CATSEARCH(title,'lamp','kind IN (''la'', ''lamp'') AND price >= 0') > 0;
-- numbers of two columns, of which the first has one value or several
SELECT id FROM lots WHERE CATSEARCH(title,'lamp','ends = 100 AND part = 3') > 0;
SELECT id FROM lots WHERE CATSEARCH(title,'lamp','ends = 100 AND part >= 1') > 0;
SELECT id FROM lots WHERE CATSEARCH(title,'lamp','ends >= 100 AND part = 1') > 0;
SELECT id FROM lots WHERE CATSEARCH(title,'lamp','ends < 100 AND part < 3') > 0;
-- a column that is the first of no sub-index
SELECT id FROM lots WHERE CATSEARCH(title,'lamp','part = 1') > 0;
SELECT id FROM lots WHERE CATSEARCH(title,'lamp','part > 1 AND part < 3') > 0;
-- columns of different sub-indexes
SELECT id FROM lots WHERE CATSEARCH(title,'lamp','price = 5 AND ends = 100') > 0;
SELECT id FROM lots WHERE CATSEARCH(title,'lamp','kind = ''lamp'' AND ends = 200') > 0;
SELECT id FROM lots WHERE CATSEARCH(title,'lamp','kind = ''lamp'' AND price = 5 AND ends = 200 AND part = 1') > 0;
-- each form of a query
SELECT id FROM lots WHERE CATSEARCH(title,'red lamp','price = 5') > 0;
SELECT id FROM lots WHERE CATSEARCH(title,'lamp - red','price >= 5') > 0;
SELECT id FROM lots WHERE CATSEARCH(title,'table | blue','price = 5') > 0;
SELECT id FROM lots WHERE CATSEARCH(title,'"red lamp"','price BETWEEN -5 AND 6') > 0;
SELECT id FROM lots WHERE CATSEARCH(title,'"lamp red"','price BETWEEN -5 AND 6') > 0;
SELECT id FROM lots WHERE CATSEARCH(title,'l*','price <= 0') > 0;
SELECT id FROM lots WHERE CATSEARCH(title,'r* (table | lamp) - blue','kind = ''lamp'' AND price = 5') > 0;
SELECT COUNT(*) FROM lots WHERE CATSEARCH(title,'chair','price = 5') > 0;
-- in order, and beside a condition of the statement
SELECT id, price FROM lots WHERE CATSEARCH(title,'lamp','price BETWEEN -6 AND 6 ORDER BY price DESC') > 0;
SELECT id, price FROM lots WHERE CATSEARCH(title,'lamp','kind = ''lamp'' ORDER BY price') > 0;
SELECT id FROM lots WHERE CATSEARCH(title,'lamp','price = 5') > 0 AND id > 0;
SELECT id FROM lots WHERE CATSEARCH(title,'lamp','price = 5') > 0 AND ends = 101;
-- after changes
UPDATE lots SET price = 7 WHERE id = 1;
SELECT id FROM lots WHERE CATSEARCH(title,'lamp','price = 5') > 0;
SELECT id FROM lots WHERE CATSEARCH(title,'lamp','price > 6') > 0;
DELETE FROM lots WHERE id = 3;
SELECT id FROM lots WHERE CATSEARCH(title,'lamp','price = 5') > 0;
UPDATE lots SET kind = 'lamp' WHERE price = 0;
SELECT id FROM lots WHERE CATSEARCH(title,'lamp','kind = ''lamp'' AND price <= 0') > 0;
