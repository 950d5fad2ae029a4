-- index sets and their sub-indexes, whose columns no table needs to have
EXEC CTX_DDL.CREATE_INDEX_SET('iset');
EXEC CTX_DDL.ADD_INDEX('iset','price');
EXEC CTX_DDL.ADD_INDEX('ISET',' Kind,PRICE ,
id');
EXECUTE ctx_ddl.add_index('iset','price,price');
EXEC CTX_DDL.ADD_INDEX('iset','select');
-- an index set of the name of a stoplist, a table and an index
EXEC CTX_DDL.CREATE_STOPLIST('docs');
CREATE TABLE docs (id NUMBER PRIMARY KEY, body CLOB, price NUMBER);
CREATE INDEX docs ON docs(body) INDEXTYPE IS CTXSYS.CONTEXT PARAMETERS ('STOPLIST docs');
EXEC CTX_DDL.CREATE_INDEX_SET('docs');
EXEC CTX_DDL.ADD_INDEX('docs','price');
EXEC CTX_DDL.ADD_STOPWORD('iset','price');
-- a name that isn't there, or is there already, before the number of arguments
EXEC CTX_DDL.ADD_INDEX('nope');
EXEC CTX_DDL.ADD_INDEX('nope','price,',1);
EXEC CTX_DDL.CREATE_INDEX_SET('Iset','BASIC_INDEX_SET');
EXEC CTX_DDL.CREATE_INDEX_SET('iset');
-- the number and kinds of arguments
EXEC CTX_DDL.CREATE_INDEX_SET('other','BASIC_INDEX_SET');
EXEC CTX_DDL.CREATE_INDEX_SET();
EXEC CTX_DDL.CREATE_INDEX_SET(1);
EXEC CTX_DDL.ADD_INDEX('iset');
EXEC CTX_DDL.ADD_INDEX('iset',1);
EXEC CTX_DDL.ADD_INDEX('iset','a,b,c,d','e');
EXEC CTX_DDL.ADD_INDEX('my set','price',TRUE);
-- names, and lists of columns that are none
EXEC CTX_DDL.CREATE_INDEX_SET('my set');
EXEC CTX_DDL.CREATE_INDEX_SET('');
EXEC CTX_DDL.ADD_INDEX('my set','price');
EXEC CTX_DDL.ADD_INDEX('iset','');
EXEC CTX_DDL.ADD_INDEX('iset',' ');
EXEC CTX_DDL.ADD_INDEX('iset','price,');
EXEC CTX_DDL.ADD_INDEX('iset',',price');
EXEC CTX_DDL.ADD_INDEX('iset','price,,id');
EXEC CTX_DDL.ADD_INDEX('iset','price id');
EXEC CTX_DDL.ADD_INDEX('iset','docs.price');
EXEC CTX_DDL.ADD_INDEX('iset','1price');
EXEC CTX_DDL.ADD_INDEX('iset','price -- the price');
EXEC CTX_DDL.ADD_INDEX('iset','aaaaaaaaaaaaaaaaaaaaaaaaaaaaaaa');
EXEC CTX_DDL.ADD_INDEX('iset','a,b,c,d,');
-- four columns; then sixteen sub-indexes, of which twelve more are added here
EXEC CTX_DDL.ADD_INDEX('iset','a,b,c,d');
EXEC CTX_DDL.ADD_INDEX('iset','aaaaaaaaaaaaaaaaaaaaaaaaaaaaaa, b#1, c$2');
EXEC CTX_DDL.ADD_INDEX('iset','c6');
EXEC CTX_DDL.ADD_INDEX('iset','c7');
EXEC CTX_DDL.ADD_INDEX('iset','c8');
EXEC CTX_DDL.ADD_INDEX('iset','c9');
EXEC CTX_DDL.ADD_INDEX('iset','c10');
EXEC CTX_DDL.ADD_INDEX('iset','c11');
EXEC CTX_DDL.ADD_INDEX('iset','c12');
EXEC CTX_DDL.ADD_INDEX('iset','c13');
EXEC CTX_DDL.ADD_INDEX('iset','c14');
EXEC CTX_DDL.ADD_INDEX('iset','c15');
EXEC CTX_DDL.ADD_INDEX('iset','c16');
EXEC CTX_DDL.ADD_INDEX('iset','c17');
EXEC CTX_DDL.ADD_INDEX('iset','c 17');
EXEC CTX_DDL.ADD_INDEX('docs','　price ,id ');
EXEC CTX_DDL.ADD_INDEX('docs','​price');
EXEC CTX_DDL.ADD_INDEX('docs','prıce');
-- a catalogue takes a set, whose columns its table has to have; a CONTEXT index takes none
CREATE INDEX di ON docs(body) INDEXTYPE IS CTXSYS.CTXCAT PARAMETERS ('INDEX SET iset');
CREATE TABLE more (id NUMBER PRIMARY KEY, body CLOB);
CREATE INDEX mi ON more(body) INDEXTYPE IS CTXSYS.CONTEXT PARAMETERS ('INDEX SET iset');
DROP TABLE docs;
EXEC CTX_DDL.ADD_INDEX('docs','id');
