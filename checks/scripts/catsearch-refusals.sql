-- the refusals of a search in a catalogue, each before each that comes behind it
EXEC CTX_DDL.CREATE_INDEX_SET('columns');
EXEC CTX_DDL.ADD_INDEX('columns','price, kind');
CREATE TABLE lots (id NUMBER PRIMARY KEY, title VARCHAR2(40), kind VARCHAR2(20), price NUMBER, note CLOB);
CREATE INDEX li ON lots(title) INDEXTYPE IS CTXCAT PARAMETERS ('INDEX SET columns');
CREATE INDEX ni ON lots(note) INDEXTYPE IS CONTEXT;
INSERT INTO lots VALUES (1,'lamp','lamp',20,'lamp');
SELECT id FROM lots WHERE CATSEARCH(title,'lamp','price = 20 ORDER BY kind') > 0;
-- E10, a statement that isn't understood, before all others: E11, E27, E13, E22, faults of the query, of the structured query, of its columns
SELECT nope FROM lots WHERE CATSEARCH(title,'lamp',NULL) > 1;
SELECT id FROM lots WHERE CATSEARCH(note,'lamp',NULL) > 1;
SELECT SCORE(1) FROM lots WHERE CATSEARCH(title,'lamp',NULL) > 1;
SELECT id FROM lots WHERE CATSEARCH(title,'lamp',NULL) > 9223372036854775808;
SELECT id FROM lots WHERE CATSEARCH(title,'|',NULL) > 1;
SELECT id FROM lots WHERE CATSEARCH(title,'lamp','|') > 1;
SELECT id FROM lots WHERE CATSEARCH(title,'lamp','id = 1') > 1;
-- E11, a name that isn't there: the table, then columns in the order of the text; none of those in the two texts
SELECT nope FROM none WHERE CATSEARCH(nono,'lamp',NULL) > 0 AND nini = 1;
SELECT id FROM lots WHERE CATSEARCH(nope,'lamp',NULL) > 0;
SELECT id, nope, nono FROM lots WHERE CATSEARCH(nini,'lamp',NULL) > 0;
SELECT id FROM lots WHERE nope = 1 AND CATSEARCH(nono,'lamp',NULL) > 0;
SELECT id FROM lots WHERE CATSEARCH(nope,'lamp',NULL) > 0 AND nono = 1;
SELECT COUNT(*) FROM lots WHERE CATSEARCH(title,'nope','nono = 1') > 0 AND nini = 1;
SELECT nope FROM lots WHERE CATSEARCH(note,'lamp',NULL) > 0;
SELECT id FROM lots WHERE CATSEARCH(note,'lamp',NULL) > 0 AND nope = 1;
SELECT SCORE(1), nope FROM lots WHERE CATSEARCH(title,'lamp',NULL) > 0;
SELECT id FROM lots WHERE CATSEARCH(title,'lamp',NULL) > 0 AND price = 'a' AND nope = 1;
SELECT id FROM lots WHERE CATSEARCH(title,'lamp',NULL) > 0 AND nope = 9223372036854775808;
SELECT id FROM lots WHERE CATSEARCH(title,'((((((((((((((((((((((((((((((((( lamp',NULL) > 0 AND nope = 1;
SELECT id FROM lots WHERE CATSEARCH(title,'|',NULL) > 0 AND nope = 1;
SELECT id FROM lots WHERE CATSEARCH(title,'lamp','price') > 0 AND nope = 1;
SELECT nope FROM lots WHERE CATSEARCH(title,'lamp','id = 1') > 0;
-- E27, a column without a catalogue: be it of texts, of numbers, or with an index of another kind
SELECT id FROM lots WHERE CATSEARCH(kind,'lamp',NULL) > 0;
SELECT id FROM lots WHERE CATSEARCH(id,'lamp',NULL) > 0;
SELECT id FROM lots WHERE CATSEARCH(note,'lamp',NULL) > 0;
SELECT id FROM lots WHERE CONTAINS(title,'lamp') > 0;
SELECT SCORE(1) FROM lots WHERE CATSEARCH(note,'lamp',NULL) > 0;
SELECT id FROM lots WHERE CATSEARCH(price,'lamp',NULL) > 0 AND note = 'lamp';
SELECT id FROM lots WHERE CATSEARCH(note,'lamp',NULL) > 0 AND price = 9223372036854775808;
SELECT id FROM lots WHERE CATSEARCH(note,'((((((((((((((((((((((((((((((((( lamp',NULL) > 0;
SELECT id FROM lots WHERE CATSEARCH(note,'|',NULL) > 0;
SELECT id FROM lots WHERE CATSEARCH(note,'lamp','price') > 0;
SELECT id FROM lots WHERE CATSEARCH(note,'lamp','price = 9223372036854775808') > 0;
SELECT id FROM lots WHERE CATSEARCH(note,'lamp','id = 1') > 0;
SELECT id FROM lots WHERE CATSEARCH(note,'lamp','price = ''a''') > 0;
-- E13, a score, or a condition of the statement on a CLOB or with a value of another type
SELECT SCORE(1) FROM lots WHERE CATSEARCH(title,'lamp',NULL) > 0;
SELECT id, SCORE(0), id FROM lots WHERE CATSEARCH(title,'lamp',NULL) > 0;
SELECT id FROM lots WHERE CATSEARCH(title,'lamp',NULL) > 0 AND note > '';
SELECT id FROM lots WHERE price IN (20, '20') AND CATSEARCH(title,'lamp',NULL) > 0;
SELECT SCORE(9223372036854775808) FROM lots WHERE CATSEARCH(title,'lamp',NULL) > 0;
SELECT id FROM lots WHERE id = 9223372036854775808 AND CATSEARCH(title,'lamp',NULL) > 0 AND kind = 1;
SELECT SCORE(1) FROM lots WHERE CATSEARCH(title,'((((((((((((((((((((((((((((((((( lamp',NULL) > 0;
SELECT SCORE(1) FROM lots WHERE CATSEARCH(title,'|',NULL) > 0;
SELECT SCORE(1) FROM lots WHERE CATSEARCH(title,'lamp','price') > 0;
SELECT SCORE(1) FROM lots WHERE CATSEARCH(title,'lamp','price = 9223372036854775808') > 0;
SELECT SCORE(1) FROM lots WHERE CATSEARCH(title,'lamp','id = 1') > 0;
-- E22, a number of a condition of the statement, wherever it stands
SELECT id FROM lots WHERE price > -9223372036854775809 AND CATSEARCH(title,'lamp',NULL) > 0;
SELECT id FROM lots WHERE CATSEARCH(title,'((((((((((((((((((((((((((((((((( lamp',NULL) > 0 AND price IN (1, 9223372036854775808);
SELECT id FROM lots WHERE CATSEARCH(title,'|',NULL) > 0 AND id = 9223372036854775808;
SELECT id FROM lots WHERE CATSEARCH(title,'lamp','price') > 0 AND id = 9223372036854775808;
SELECT id FROM lots WHERE CATSEARCH(title,'lamp','price = 9223372036854775808') > 0 AND id = 9223372036854775808;
SELECT id FROM lots WHERE CATSEARCH(title,'lamp','id = 1') > 0 AND id = 9223372036854775808;
SELECT id FROM lots WHERE CATSEARCH(title,'lamp','price = ''a''') > 0 AND id = 9223372036854775808;
-- E26, a query that is too large, also where it is none
SELECT id FROM lots WHERE CATSEARCH(title,'| ((((((((((((((((((((((((((((((((( lamp',NULL) > 0;
SELECT id FROM lots WHERE CATSEARCH(title,'((((((((((((((((((((((((((((((((( lamp','price') > 0;
SELECT id FROM lots WHERE CATSEARCH(title,'((((((((((((((((((((((((((((((((( lamp','price = 9223372036854775808') > 0;
SELECT id FROM lots WHERE CATSEARCH(title,'((((((((((((((((((((((((((((((((( lamp','id = 1') > 0;
-- E20 of the query, then E20 and E22 of the structured query, of which the first place counts
SELECT id FROM lots WHERE CATSEARCH(title,'lamp lamp |','price') > 0;
SELECT id FROM lots WHERE CATSEARCH(title,'lamp lamp |','price = 9223372036854775808') > 0;
SELECT id FROM lots WHERE CATSEARCH(title,'lamp lamp |','id = 1') > 0;
SELECT id FROM lots WHERE CATSEARCH(title,'lamp lamp |','price = ''a''') > 0;
SELECT id FROM lots WHERE CATSEARCH(title,'lamp','price = 9223372036854775808 AND price') > 0;
SELECT id FROM lots WHERE CATSEARCH(title,'lamp','price AND price = 9223372036854775808') > 0;
SELECT id FROM lots WHERE CATSEARCH(title,'lamp','id = 1 AND price') > 0;
SELECT id FROM lots WHERE CATSEARCH(title,'lamp','price = ''a'' AND id = 9223372036854775808') > 0;
SELECT id FROM lots WHERE CATSEARCH(title,'lamp','price = ''a'' ORDER BY 1') > 0;
-- E33 and E13 of its columns, in the order of the text; a column that is in no sub-index isn't asked for the type of its value
SELECT id FROM lots WHERE CATSEARCH(title,'lamp','id = 1') > 0;
SELECT id FROM lots WHERE CATSEARCH(title,'lamp','id = ''a''') > 0;
SELECT id FROM lots WHERE CATSEARCH(title,'lamp','note = 1') > 0;
SELECT id FROM lots WHERE CATSEARCH(title,'lamp','nope = ''a''') > 0;
SELECT id FROM lots WHERE CATSEARCH(title,'lamp','price = ''20''') > 0;
SELECT id FROM lots WHERE CATSEARCH(title,'lamp','kind = 20') > 0;
SELECT id FROM lots WHERE CATSEARCH(title,'lamp','price BETWEEN 1 AND ''2''') > 0;
SELECT id FROM lots WHERE CATSEARCH(title,'lamp','price BETWEEN ''1'' AND 2') > 0;
SELECT id FROM lots WHERE CATSEARCH(title,'lamp','kind IN (''a'', 1)') > 0;
SELECT id FROM lots WHERE CATSEARCH(title,'lamp','price = ''a'' AND id = 1') > 0;
SELECT id FROM lots WHERE CATSEARCH(title,'lamp','id = 1 AND price = ''a''') > 0;
SELECT id FROM lots WHERE CATSEARCH(title,'lamp','price = 20 AND kind = ''lamp'' AND title = ''lamp'' AND id = 1') > 0;
SELECT id FROM lots WHERE CATSEARCH(title,'lamp','price = ''a'' ORDER BY id') > 0;
SELECT id FROM lots WHERE CATSEARCH(title,'lamp','price = 20 ORDER BY kind, TITLE, id') > 0;
SELECT COUNT(*) FROM lots WHERE CATSEARCH(title,'lamp','ORDER BY id') > 0;
-- also where nothing is found, be it for a query that is nothing, or for a table without rows
SELECT id FROM lots WHERE CATSEARCH(title,'""','id = 1') > 0;
SELECT id FROM lots WHERE CATSEARCH(title,'chair','ORDER BY id') > 0;
DELETE FROM lots;
SELECT id FROM lots WHERE CATSEARCH(title,'lamp','price = ''a''') > 0;
SELECT id FROM lots WHERE CATSEARCH(title,'lamp','price') > 0;
SELECT id FROM lots WHERE CATSEARCH(title,'|',NULL) > 0;
SELECT id FROM lots WHERE CATSEARCH(title,'lamp','price = 20 ORDER BY kind') > 0;
INSERT INTO lots VALUES (1,'lamp','lamp',20,'lamp');
-- statements that are none: signs, numbers and arguments in other forms
SELECT id FROM lots WHERE CATSEARCH(title,'lamp',NULL) >= 0;
SELECT id FROM lots WHERE CATSEARCH(title,'lamp',NULL) = 0;
SELECT id FROM lots WHERE CATSEARCH(title,'lamp',NULL) > -0;
SELECT id FROM lots WHERE CATSEARCH(title,'lamp',NULL) > '0';
SELECT id FROM lots WHERE CATSEARCH(title,'lamp',NULL);
SELECT id FROM lots WHERE 0 < CATSEARCH(title,'lamp',NULL);
SELECT id FROM lots WHERE CATSEARCH('title','lamp',NULL) > 0;
SELECT id FROM lots WHERE CATSEARCH(lots.title,'lamp',NULL) > 0;
SELECT id FROM lots WHERE CATSEARCH(title,lamp,NULL) > 0;
SELECT id FROM lots WHERE CATSEARCH(title,1,NULL) > 0;
SELECT id FROM lots WHERE CATSEARCH(title,'lamp','','') > 0;
SELECT id FROM lots WHERE CATSEARCH(title,'lamp',NULL,1) > 0;
SELECT id FROM lots WHERE CATSEARCH(title,'lamp',TRUE) > 0;
SELECT id FROM lots WHERE CATSEARCH(title 'lamp',NULL) > 0;
SELECT id FROM lots WHERE CTXSYS.CATSEARCH(title,'lamp',NULL) > 0;
SELECT id FROM lots WHERE NOT CATSEARCH(title,'lamp',NULL) > 0;
SELECT id FROM lots WHERE id = 1 OR CATSEARCH(title,'lamp',NULL) > 0;
SELECT id FROM lots WHERE (CATSEARCH(title,'lamp',NULL) > 0);
SELECT id FROM lots WHERE CONTAINS(note,'lamp') > 0 AND CATSEARCH(title,'lamp',NULL) > 0;
SELECT CATSEARCH(title,'lamp',NULL) FROM lots;
SELECT id FROM lots WHERE CATSEARCH(title,'lamp',NULL) > 0 ORDER BY id;
-- UPDATE and DELETE take conditions alone, and no table or column has the name
UPDATE lots SET price = 1 WHERE CATSEARCH(title,'lamp',NULL) > 0;
DELETE FROM lots WHERE CATSEARCH(title,'lamp',NULL) > 0;
CREATE TABLE catsearch (id NUMBER PRIMARY KEY);
CREATE TABLE t (id NUMBER PRIMARY KEY, catsearch NUMBER);
-- the view of rows that wait takes no search, and knows no columns
SELECT COUNT(*) FROM ctx_user_pending WHERE CATSEARCH(nope,'|','|') > 0;
SELECT nope FROM ctx_user_pending WHERE CATSEARCH(none,'lamp',NULL) > 0;
-- nothing was changed by any of these
SELECT * FROM lots WHERE CATSEARCH(title,'lamp','price = 20 ORDER BY kind') > 00;
