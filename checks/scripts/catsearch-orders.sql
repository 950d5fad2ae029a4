-- structured queries: conditions and orders by numbers, by texts and by the key, which stands in a sub-index here
EXEC CTX_DDL.CREATE_INDEX_SET('columns');
EXEC CTX_DDL.ADD_INDEX('columns','id');
EXEC CTX_DDL.ADD_INDEX('columns','kind,price');
EXEC CTX_DDL.ADD_INDEX('columns','price,ends,kind');
EXEC CTX_DDL.ADD_INDEX('columns','title');
CREATE TABLE lots (id NUMBER PRIMARY KEY, title VARCHAR2(40), kind VARCHAR2(100), price NUMBER, ends NUMBER, long VARCHAR2(101), note CLOB);
CREATE INDEX li ON lots(title) INDEXTYPE IS CTXSYS.CTXCAT PARAMETERS ('INDEX SET columns');
INSERT INTO lots VALUES (5,'old lamp','lamp',20,900,'a','first');
INSERT INTO lots VALUES (3,'lamp','Lamp',20,930,'b','');
INSERT INTO lots VALUES (-8,'new lamp','lamps',-20,900,'c','a|b');
INSERT INTO lots VALUES (9223372036854775807,'Lamp','',9223372036854775807,0,'d','');
INSERT INTO lots VALUES (-9223372036854775808,'LAMP','été',-9223372036854775808,1,'e','');
INSERT INTO lots VALUES (0,'lamp, old','lamp',20,900,'f','c\d');
INSERT INTO lots VALUES (7,'a lamp','o''clock|\',0,930,'g','');
INSERT INTO lots VALUES (8,'lamp','�',0,945,'','');
INSERT INTO lots VALUES (9,'lamp','😀',0,945,'','');
INSERT INTO lots VALUES (10,'table','lamp',20,900,'','');
-- without an order rows come by their keys; NULL and the empty text ask for nothing
SELECT id FROM lots WHERE CATSEARCH(title,'lamp',NULL) > 0;
SELECT id FROM lots WHERE CATSEARCH(title,'lamp','') > 0;
select ID from LOTS where catsearch ( Title , 'lamp' , null ) > 0;
SELECT id FROM lots WHERE CATSEARCH(title,'lamp','
-- nothing here
  -- nor here') > 0;
-- by a number up and down; rows of one value come by rising keys both times
SELECT id, price FROM lots WHERE CATSEARCH(title,'lamp','ORDER BY price') > 0;
SELECT id, price FROM lots WHERE CATSEARCH(title,'lamp','ORDER BY price ASC') > 0;
SELECT id, price FROM lots WHERE CATSEARCH(title,'lamp','ORDER BY price DESC') > 0;
-- by a text, whose bytes count: the empty one is the least, capitals come first, a longer text behind its beginning
SELECT id, kind FROM lots WHERE CATSEARCH(title,'lamp','ORDER BY kind') > 0;
SELECT id, kind FROM lots WHERE CATSEARCH(title,'lamp','order by Kind Desc') > 0;
SELECT title, id FROM lots WHERE CATSEARCH(title,'lamp','ORDER BY title') > 0;
-- by the key
SELECT id FROM lots WHERE CATSEARCH(title,'lamp','ORDER BY id') > 0;
SELECT id FROM lots WHERE CATSEARCH(title,'lamp','ORDER BY id DESC') > 0;
SELECT id, price FROM lots WHERE CATSEARCH(title,'lamp','ORDER BY price, id DESC') > 0;
-- by two and three columns, each up or down; the first one counts first, also where they stand in no sub-index together
SELECT ends, price, id FROM lots WHERE CATSEARCH(title,'lamp','ORDER BY ends, price') > 0;
SELECT ends, price, id FROM lots WHERE CATSEARCH(title,'lamp','ORDER BY ends DESC, price') > 0;
SELECT ends, price, id FROM lots WHERE CATSEARCH(title,'lamp','ORDER BY ends ASC, price DESC') > 0;
SELECT ends, price, kind, id FROM lots WHERE CATSEARCH(title,'lamp','ORDER BY price DESC, ends DESC, kind DESC') > 0;
SELECT title, ends FROM lots WHERE CATSEARCH(title,'lamp','ORDER BY title DESC, ends DESC') > 0;
-- a column that comes once more changes nothing, nor does one behind the key
SELECT id, price FROM lots WHERE CATSEARCH(title,'lamp','ORDER BY price, price DESC, price') > 0;
SELECT id FROM lots WHERE CATSEARCH(title,'lamp','ORDER BY id DESC, price') > 0;
-- conditions: of every sign, on numbers
SELECT id FROM lots WHERE CATSEARCH(title,'lamp','price = 20') > 0;
SELECT id FROM lots WHERE CATSEARCH(title,'lamp','price < 0') > 0;
SELECT id FROM lots WHERE CATSEARCH(title,'lamp','price <= 0') > 0;
SELECT id FROM lots WHERE CATSEARCH(title,'lamp','price > 20') > 0;
SELECT id FROM lots WHERE CATSEARCH(title,'lamp','price>=020') > 0;
SELECT id FROM lots WHERE CATSEARCH(title,'lamp','price BETWEEN -20 AND 0') > 0;
SELECT id FROM lots WHERE CATSEARCH(title,'lamp','price BETWEEN 0 AND -20') > 0;
SELECT id FROM lots WHERE CATSEARCH(title,'lamp','price IN (-20, 0, 0, 19)') > 0;
SELECT id FROM lots WHERE CATSEARCH(title,'lamp','price = - 20') > 0;
SELECT id FROM lots WHERE CATSEARCH(title,'lamp','price = -- minus
-9223372036854775808') > 0;
SELECT id FROM lots WHERE CATSEARCH(title,'lamp','price > 9223372036854775806') > 0;
SELECT COUNT(*) FROM lots WHERE CATSEARCH(title,'lamp','price > 9223372036854775807') > 0;
-- on texts, without the keys of words; one may be longer than the column takes
SELECT id FROM lots WHERE CATSEARCH(title,'lamp','kind = ''lamp''') > 0;
SELECT id FROM lots WHERE CATSEARCH(title,'lamp','kind = ''LAMP''') > 0;
SELECT id FROM lots WHERE CATSEARCH(title,'lamp','kind = ''''') > 0;
SELECT id FROM lots WHERE CATSEARCH(title,'lamp','kind = ''o''''clock|\''') > 0;
SELECT id FROM lots WHERE CATSEARCH(title,'lamp','kind > ''lamp''') > 0;
SELECT id FROM lots WHERE CATSEARCH(title,'lamp','kind <= ''lamp''') > 0;
SELECT id FROM lots WHERE CATSEARCH(title,'lamp','kind BETWEEN ''L'' AND ''lamp''') > 0;
SELECT id FROM lots WHERE CATSEARCH(title,'lamp','kind IN (''été'', '''', ''none'')') > 0;
SELECT id FROM lots WHERE CATSEARCH(title,'lamp','kind > ''été'' AND kind < ''😀''') > 0;
SELECT id FROM lots WHERE CATSEARCH(title,'old','title = ''old lamp''') > 0;
SELECT id FROM lots WHERE CATSEARCH(title,'lamp','title < ''aaaaaaaaaaaaaaaaaaaaaaaaaaaaaaaaaaaaaaaaaaaaaaaaaaaaaaaaaaaaaaaaaaaaaaaaaaaaaaaa''') > 0;
-- on the key
SELECT id FROM lots WHERE CATSEARCH(title,'lamp','id = 7') > 0;
SELECT id FROM lots WHERE CATSEARCH(title,'lamp','id < 0') > 0;
SELECT id FROM lots WHERE CATSEARCH(title,'lamp','id BETWEEN 0 AND 8 AND id > 0 ORDER BY id DESC') > 0;
SELECT id FROM lots WHERE CATSEARCH(title,'lamp','id IN (9223372036854775807, 10, -9223372036854775808)') > 0;
-- several, of columns of different sub-indexes; and such as no row meets
SELECT id FROM lots WHERE CATSEARCH(title,'lamp','price = 20 AND ends = 900 AND kind = ''lamp'' AND title < ''old''') > 0;
SELECT id FROM lots WHERE CATSEARCH(title,'lamp','price = 20 AND price = 21') > 0;
SELECT id, price FROM lots WHERE CATSEARCH(title,'lamp - old','ends >= 900 AND price < 20 ORDER BY price, kind DESC') > 0;
SELECT id FROM lots WHERE CATSEARCH(title,'table','price = 20') > 0;
SELECT id FROM lots WHERE CATSEARCH(title,'chair','price = 20 ORDER BY price') > 0;
-- beside conditions of the statement, before and behind; those may be on any column but a CLOB
SELECT id FROM lots WHERE long > '' AND CATSEARCH(title,'lamp','price <= 20 ORDER BY price DESC') > 0 AND id > -1;
SELECT id FROM lots WHERE CATSEARCH(title,'lamp','price = 0') > 0 AND price = 20;
SELECT COUNT(*) FROM lots WHERE CATSEARCH(title,'lamp','price <= 20 ORDER BY price DESC') > 0 AND long > '';
SELECT id FROM lots WHERE CATSEARCH(title,'lamp',NULL) > 0 AND note = '';
-- lists: all columns, one of them twice, and the number of the rows
SELECT * FROM lots WHERE CATSEARCH(title,'lamp','ends < 940 ORDER BY ends DESC, id DESC') > 0;
SELECT note, id, note FROM lots WHERE CATSEARCH(title,'old | new','ORDER BY kind DESC') > 0;
SELECT COUNT(*) FROM lots WHERE CATSEARCH(title,'lamp',NULL) > 0;
SELECT COUNT(*) FROM lots WHERE CATSEARCH(title,'chair','ORDER BY price') > 0;
SELECT SCORE(1) FROM lots WHERE CATSEARCH(title,'lamp',NULL) > 0;
SELECT SCORE(0), id FROM lots WHERE CATSEARCH(title,'lamp','ORDER BY price') > 0;
-- columns in no sub-index: those that no sub-index can have, and those that this set hasn't
SELECT id FROM lots WHERE CATSEARCH(title,'lamp','long = ''a''') > 0;
SELECT id FROM lots WHERE CATSEARCH(title,'lamp','ORDER BY note') > 0;
SELECT id FROM lots WHERE CATSEARCH(title,'lamp','score = 1') > 0;
SELECT id FROM lots WHERE CATSEARCH(title,'lamp','weight = 1 ORDER BY price') > 0;
-- what is no structured query: its first bad place, told as that of a query is
SELECT id FROM lots WHERE CATSEARCH(title,'lamp','price') > 0;
SELECT id FROM lots WHERE CATSEARCH(title,'lamp','price 20') > 0;
SELECT id FROM lots WHERE CATSEARCH(title,'lamp','price <> 20') > 0;
SELECT id FROM lots WHERE CATSEARCH(title,'lamp','price != 20') > 0;
SELECT id FROM lots WHERE CATSEARCH(title,'lamp','price == 20') > 0;
SELECT id FROM lots WHERE CATSEARCH(title,'lamp','price = 20.5') > 0;
SELECT id FROM lots WHERE CATSEARCH(title,'lamp','price = +20') > 0;
SELECT id FROM lots WHERE CATSEARCH(title,'lamp','price = - - 20') > 0;
SELECT id FROM lots WHERE CATSEARCH(title,'lamp','price = --20') > 0;
SELECT id FROM lots WHERE CATSEARCH(title,'lamp','price = ends') > 0;
SELECT id FROM lots WHERE CATSEARCH(title,'lamp','price = -''20''') > 0;
SELECT id FROM lots WHERE CATSEARCH(title,'lamp','20 = price') > 0;
SELECT id FROM lots WHERE CATSEARCH(title,'lamp','''price'' = 20') > 0;
SELECT id FROM lots WHERE CATSEARCH(title,'lamp','(price = 20)') > 0;
SELECT id FROM lots WHERE CATSEARCH(title,'lamp','lots.price = 20') > 0;
SELECT id FROM lots WHERE CATSEARCH(title,'lamp','select = 20') > 0;
SELECT id FROM lots WHERE CATSEARCH(title,'lamp','price_of_a_lot_without_its_cheap = 20') > 0;
SELECT id FROM lots WHERE CATSEARCH(title,'lamp','price IS NULL') > 0;
SELECT id FROM lots WHERE CATSEARCH(title,'lamp','NULL') > 0;
SELECT id FROM lots WHERE CATSEARCH(title,'lamp','kind LIKE ''l''') > 0;
SELECT id FROM lots WHERE CATSEARCH(title,'lamp','NOT price = 20') > 0;
SELECT id FROM lots WHERE CATSEARCH(title,'lamp','price = 20 AND') > 0;
SELECT id FROM lots WHERE CATSEARCH(title,'lamp','price = 20, ends = 900') > 0;
SELECT id FROM lots WHERE CATSEARCH(title,'lamp','price = 20 ends = 900') > 0;
SELECT id FROM lots WHERE CATSEARCH(title,'lamp','AND price = 20') > 0;
SELECT id FROM lots WHERE CATSEARCH(title,'lamp','price = 20;') > 0;
SELECT id FROM lots WHERE CATSEARCH(title,'lamp','price BETWEEN 1') > 0;
SELECT id FROM lots WHERE CATSEARCH(title,'lamp','price BETWEEN 1, 20') > 0;
SELECT id FROM lots WHERE CATSEARCH(title,'lamp','price BETWEEN 1 AND price = 20') > 0;
SELECT id FROM lots WHERE CATSEARCH(title,'lamp','price IN 20') > 0;
SELECT id FROM lots WHERE CATSEARCH(title,'lamp','price IN (20,)') > 0;
SELECT id FROM lots WHERE CATSEARCH(title,'lamp','price IN (20 21)') > 0;
SELECT id FROM lots WHERE CATSEARCH(title,'lamp','price IN (20') > 0;
SELECT id FROM lots WHERE CATSEARCH(title,'lamp','ORDER') > 0;
SELECT id FROM lots WHERE CATSEARCH(title,'lamp','ORDER BY') > 0;
SELECT id FROM lots WHERE CATSEARCH(title,'lamp','BY price') > 0;
SELECT id FROM lots WHERE CATSEARCH(title,'lamp','ORDER price') > 0;
SELECT id FROM lots WHERE CATSEARCH(title,'lamp','ORDER BY 1') > 0;
SELECT id FROM lots WHERE CATSEARCH(title,'lamp','ORDER BY price ends') > 0;
SELECT id FROM lots WHERE CATSEARCH(title,'lamp','ORDER BY price,, ends') > 0;
SELECT id FROM lots WHERE CATSEARCH(title,'lamp','ORDER BY price ASC DESC') > 0;
SELECT id FROM lots WHERE CATSEARCH(title,'lamp','ORDER BY DESC') > 0;
SELECT id FROM lots WHERE CATSEARCH(title,'lamp','ORDER BY price AND ends = 900') > 0;
SELECT id FROM lots WHERE CATSEARCH(title,'lamp','ORDER BY price ORDER BY ends') > 0;
SELECT id FROM lots WHERE CATSEARCH(title,'lamp','ORDER BY SCORE(1)') > 0;
SELECT id FROM lots WHERE CATSEARCH(title,'lamp','kind = ''été'' AND é = 1') > 0;
SELECT id FROM lots WHERE CATSEARCH(title,'lamp','kind = ''lamp') > 0;
SELECT id FROM lots WHERE CATSEARCH(title,'lamp','kind = "lamp"') > 0;
-- a number past the 64 bits is a fault of its own where a number may stand, at its digits; the first bad place counts
SELECT id FROM lots WHERE CATSEARCH(title,'lamp','price = 9223372036854775808') > 0;
SELECT id FROM lots WHERE CATSEARCH(title,'lamp','price = -9223372036854775809') > 0;
SELECT id FROM lots WHERE CATSEARCH(title,'lamp','price = - 9223372036854775809') > 0;
SELECT id FROM lots WHERE CATSEARCH(title,'lamp','price = 00000000000000000000000000000000000000020') > 0;
SELECT id FROM lots WHERE CATSEARCH(title,'lamp','kind = 9223372036854775808') > 0;
SELECT id FROM lots WHERE CATSEARCH(title,'lamp','nope = 9223372036854775808') > 0;
SELECT id FROM lots WHERE CATSEARCH(title,'lamp','price IN (1, -9223372036854775808, 9223372036854775808') > 0;
SELECT id FROM lots WHERE CATSEARCH(title,'lamp','price BETWEEN 1 AND 9223372036854775808 9223372036854775808') > 0;
SELECT id FROM lots WHERE CATSEARCH(title,'lamp','price 9223372036854775808') > 0;
SELECT id FROM lots WHERE CATSEARCH(title,'lamp','price = 20 9223372036854775808') > 0;
SELECT id FROM lots WHERE CATSEARCH(title,'lamp','ORDER BY 9223372036854775808') > 0;
SELECT id FROM lots WHERE CATSEARCH(title,'lamp','price = < 9223372036854775808') > 0;
SELECT id FROM lots WHERE CATSEARCH(title,'lamp','price = 9223372036854775808 < ') > 0;
