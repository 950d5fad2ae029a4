-- catalogues, which SYNC_INDEX refuses and no view of waiting rows shows
CREATE TABLE items (id NUMBER PRIMARY KEY, title VARCHAR2(100), body CLOB, kind VARCHAR2(20), note VARCHAR2(101), price NUMBER);
INSERT INTO items VALUES (1,'red car','a red car','car','',9);
CREATE INDEX ci ON items(title) INDEXTYPE IS CTXSYS.CTXCAT;
INSERT INTO items VALUES (2,'red hat','a hat','hat','',3);
SELECT * FROM ctx_user_pending;
EXEC CTX_DDL.SYNC_INDEX('ci');
EXEC CTX_DDL.SYNC_INDEX('CI','16M');
-- a catalogue beside a CONTEXT index on one column, and on a CLOB; CONTAINS asks the CONTEXT index alone
SELECT id FROM items WHERE CONTAINS(title,'red') > 0;
CREATE INDEX ti ON items(title) INDEXTYPE IS CONTEXT;
SELECT id FROM items WHERE CONTAINS(title,'red') > 0;
CREATE INDEX di ON items(body) INDEXTYPE IS CONTEXT;
create index bi on items(body) indextype is ctxcat;
INSERT INTO items VALUES (3,'blue hat','a blue hat','hat','',5);
SELECT * FROM ctx_user_pending;
EXEC CTX_DDL.SYNC_INDEX('ti');
SELECT * FROM ctx_user_pending;
SELECT id FROM items WHERE CONTAINS(title,'blue') > 0;
-- E11 of the index, then E27, then E13, then E30
EXEC CTX_DDL.SYNC_INDEX('nope',1,2);
EXEC CTX_DDL.SYNC_INDEX('ci',1,2);
EXEC CTX_DDL.SYNC_INDEX('ci','much');
EXEC CTX_DDL.SYNC_INDEX('no name','much',2);
EXEC CTX_DDL.SYNC_INDEX('ti',1,2);
EXEC CTX_DDL.SYNC_INDEX('ti','much');
-- CATSEARCH asks the catalogue alone, PARAMETERS takes a text, and OPTIMIZE_INDEX is for CONTEXT indexes
SELECT id FROM items WHERE CATSEARCH(title,'red',NULL) > 0;
SELECT id FROM items WHERE CATSEARCH(title,'red','price < 5 ORDER BY price') > 0;
SELECT id FROM nope WHERE CATSEARCH(nope,'',NULL) > 0;
CREATE INDEX pi ON items(kind) INDEXTYPE IS CTXCAT PARAMETERS (INDEX SET iset);
EXEC CTX_DDL.OPTIMIZE_INDEX('ci','FULL');
-- index sets: the key, a short text and a number may be in a sub-index, twice too; sub-indexes may be the same
EXEC CTX_DDL.CREATE_PREFERENCE('lx','BASIC_LEXER');
EXEC CTX_DDL.CREATE_STOPLIST('sl');
EXEC CTX_DDL.ADD_STOPWORD('sl','a');
EXEC CTX_DDL.CREATE_SECTION_GROUP('g','NULL_SECTION_GROUP');
EXEC CTX_DDL.CREATE_INDEX_SET('empty');
EXEC CTX_DDL.CREATE_INDEX_SET('iset');
EXEC CTX_DDL.ADD_INDEX('iset','price');
EXEC CTX_DDL.ADD_INDEX('iset','Kind, PRICE,price');
EXEC CTX_DDL.ADD_INDEX('iset','id');
EXEC CTX_DDL.ADD_INDEX('iset','price');
EXEC CTX_DDL.ADD_INDEX('iset','title');
EXEC CTX_DDL.CREATE_INDEX_SET('nosuch');
EXEC CTX_DDL.ADD_INDEX('nosuch','price,colour,size');
EXEC CTX_DDL.CREATE_INDEX_SET('long');
EXEC CTX_DDL.ADD_INDEX('long','price,note');
EXEC CTX_DDL.CREATE_INDEX_SET('clob');
EXEC CTX_DDL.ADD_INDEX('clob','body');
EXEC CTX_DDL.CREATE_INDEX_SET('both');
EXEC CTX_DDL.ADD_INDEX('both','body');
EXEC CTX_DDL.ADD_INDEX('both','weight');
-- E11: the table, the column, the names of PARAMETERS in their order, and last the columns of the set, which stand in no statement
CREATE INDEX ci ON nope(nono) INDEXTYPE IS CTXCAT PARAMETERS ('INDEX SET nini');
CREATE INDEX ci ON items(nono) INDEXTYPE IS CTXCAT PARAMETERS ('INDEX SET nini');
CREATE INDEX ci ON items(title) INDEXTYPE IS CTXCAT PARAMETERS ('INDEX SET nini LEXER nene STOPLIST nunu');
CREATE INDEX ci ON items(title) INDEXTYPE IS CTXCAT PARAMETERS ('STOPLIST nunu INDEX SET nini LEXER nene');
CREATE INDEX ci ON items(title) INDEXTYPE IS CTXCAT PARAMETERS ('INDEX SET nosuch LEXER nene');
CREATE INDEX ci ON items(title) INDEXTYPE IS CTXCAT PARAMETERS ('INDEX SET nosuch');
CREATE INDEX ci ON items(price) INDEXTYPE IS CTXCAT PARAMETERS ('INDEX SET both');
-- E12: the name of an index of any kind, or a catalogue on the column
CREATE INDEX ci ON items(price) INDEXTYPE IS CTXCAT PARAMETERS ('INDEX SET clob');
CREATE INDEX ti ON items(kind) INDEXTYPE IS CTXCAT;
CREATE INDEX cj ON items(title) INDEXTYPE IS CTXCAT PARAMETERS ('INDEX SET long');
CREATE INDEX tj ON items(title) INDEXTYPE IS CONTEXT;
CREATE INDEX cj ON items(title) INDEXTYPE IS CTXCAT PARAMETERS ('SECTION GROUP g');
-- E13: a column of numbers
CREATE INDEX ni ON items(price) INDEXTYPE IS CTXCAT PARAMETERS ('INDEX SET long');
CREATE INDEX ni ON items(id) INDEXTYPE IS CTXCAT PARAMETERS ('SECTION GROUP g');
-- E30: a column of the set that is a CLOB or a long text, and parameters of no form; those name nothing
CREATE INDEX ki ON items(kind) INDEXTYPE IS CTXCAT PARAMETERS ('INDEX SET long');
CREATE INDEX ki ON items(kind) INDEXTYPE IS CTXCAT PARAMETERS ('INDEX SET clob');
CREATE INDEX ki ON items(kind) INDEXTYPE IS CTXCAT PARAMETERS ('SECTION GROUP g');
CREATE INDEX ki ON items(kind) INDEXTYPE IS CTXCAT PARAMETERS ('INDEX SET nini SECTION GROUP CTXSYS.NULL_SECTION_GROUP');
CREATE INDEX ki ON items(kind) INDEXTYPE IS CTXCAT PARAMETERS ('INDEX SET nini INDEX SET nini');
CREATE INDEX ki ON items(kind) INDEXTYPE IS CTXCAT PARAMETERS ('INDEX SET');
CREATE INDEX ki ON items(kind) INDEXTYPE IS CTXCAT PARAMETERS ('SET iset');
CREATE INDEX ki ON items(kind) INDEXTYPE IS CTXCAT PARAMETERS ('INDEXSET iset');
CREATE INDEX ki ON items(kind) INDEXTYPE IS CTXCAT PARAMETERS ('INDEX SET CTXSYS.DEFAULT_LEXER');
CREATE INDEX ki ON items(kind) INDEXTYPE IS CTXCAT PARAMETERS ('TRANSACTIONAL');
CREATE INDEX ki ON items(kind) INDEXTYPE IS CONTEXT PARAMETERS ('INDEX SET iset');
CREATE INDEX ki ON items(kind) INDEXTYPE IS CONTEXT PARAMETERS ('INDEX SET nini');
-- in any case and order
CREATE INDEX ki ON items(kind) INDEXTYPE IS CTXCAT PARAMETERS ('stoplist SL Index
set ISET lexer Ctxsys.Default_Lexer');
CREATE INDEX oi ON items(note) INDEXTYPE IS CTXCAT PARAMETERS ('INDEX SET empty');
-- a set that is changed later changes no index, and may be one that an index couldn't be made by any more
EXEC CTX_DDL.ADD_INDEX('iset','colour');
EXEC CTX_DDL.ADD_INDEX('empty','body');
EXEC CTX_DDL.ADD_STOPWORD('sl','hat');
INSERT INTO items VALUES (4,'green hat','a green hat','hat','a',7);
DROP INDEX ki;
CREATE INDEX ki ON items(kind) INDEXTYPE IS CTXCAT PARAMETERS ('INDEX SET iset');
CREATE INDEX ki ON items(kind) INDEXTYPE IS CTXCAT PARAMETERS ('INDEX SET empty');
CREATE INDEX ki ON items(kind) INDEXTYPE IS CTXCAT PARAMETERS ('');
-- rows that change under both kinds
UPDATE items SET title = 'white hat', kind = 'cap' WHERE id = 2;
UPDATE items SET title = 'blue hat' WHERE id = 3;
UPDATE items SET price = 4 WHERE price < 8;
UPDATE items SET note = 'b' WHERE note = 'a';
DELETE FROM items WHERE id = 1;
SELECT * FROM ctx_user_pending;
SELECT * FROM items;
EXEC CTX_DDL.SYNC_INDEX('ti');
SELECT id FROM items WHERE CONTAINS(title,'hat') > 0;
-- dropping one leaves the other
DROP INDEX ci;
SELECT id FROM items WHERE CONTAINS(title,'white') > 0;
CREATE INDEX ci ON items(title) INDEXTYPE IS CTXCAT;
DROP INDEX ti;
SELECT id FROM items WHERE CONTAINS(title,'white') > 0;
EXEC CTX_DDL.SYNC_INDEX('ci');
EXEC CTX_DDL.SYNC_INDEX('ti');
-- a table goes with its indexes of both kinds, whose names are free again
DROP TABLE items;
EXEC CTX_DDL.SYNC_INDEX('ci');
SELECT COUNT(*) FROM ctx_user_pending;
CREATE TABLE items (id NUMBER PRIMARY KEY, c1 CLOB, c2 CLOB, c3 CLOB, c4 CLOB, c5 CLOB, c6 CLOB, c7 CLOB, c8 CLOB, c9 CLOB);
-- sixteen indexes of a table, of both kinds, and no more
CREATE INDEX ci ON items(c1) INDEXTYPE IS CTXCAT;
CREATE INDEX i2 ON items(c1) INDEXTYPE IS CONTEXT;
CREATE INDEX i3 ON items(c2) INDEXTYPE IS CTXCAT;
CREATE INDEX i4 ON items(c2) INDEXTYPE IS CONTEXT;
CREATE INDEX i5 ON items(c3) INDEXTYPE IS CTXCAT;
CREATE INDEX i6 ON items(c3) INDEXTYPE IS CONTEXT;
CREATE INDEX i7 ON items(c4) INDEXTYPE IS CTXCAT;
CREATE INDEX i8 ON items(c4) INDEXTYPE IS CONTEXT;
CREATE INDEX i9 ON items(c5) INDEXTYPE IS CTXCAT;
CREATE INDEX i10 ON items(c5) INDEXTYPE IS CONTEXT;
CREATE INDEX i11 ON items(c6) INDEXTYPE IS CTXCAT;
CREATE INDEX i12 ON items(c6) INDEXTYPE IS CONTEXT;
CREATE INDEX i13 ON items(c7) INDEXTYPE IS CTXCAT;
CREATE INDEX i14 ON items(c7) INDEXTYPE IS CONTEXT;
CREATE INDEX i15 ON items(c8) INDEXTYPE IS CTXCAT;
CREATE INDEX i16 ON items(c8) INDEXTYPE IS CONTEXT;
CREATE INDEX i17 ON items(c9) INDEXTYPE IS CTXCAT;
CREATE INDEX i17 ON items(c9) INDEXTYPE IS CONTEXT;
CREATE INDEX i17 ON items(c9) INDEXTYPE IS CTXCAT PARAMETERS ('INDEX SET');
DROP INDEX i4;
CREATE INDEX i17 ON items(c9) INDEXTYPE IS CTXCAT;
CREATE INDEX i4 ON items(c2) INDEXTYPE IS CONTEXT;
INSERT INTO items VALUES (1,'a','b','c','d','e','f','g','h','i');
SELECT COUNT(*) FROM ctx_user_pending;
UPDATE items SET c1 = 'b', c2 = 'c';
DELETE items;
SELECT COUNT(*) FROM ctx_user_pending;
