-- descriptors: what they are, and the refusals of CTX_QUERY.RESULT_SET, each before each that comes behind it
CREATE TABLE docs (id NUMBER PRIMARY KEY, body CLOB, price NUMBER, by_ VARCHAR2(9), to_ VARCHAR2(9), hits NUMBER, n1 NUMBER, count$# NUMBER);
CREATE INDEX di ON docs(body) INDEXTYPE IS CONTEXT;
CREATE INDEX ri ON docs(by_) INDEXTYPE IS CTXRULE;
CREATE INDEX ci ON docs(to_) INDEXTYPE IS CTXCAT;
INSERT INTO docs VALUES (1,'red',5,'x','y',3,8,9);
INSERT INTO docs VALUES (2,'red red',6,'x','z',2,8,9);
EXEC CTX_DDL.SYNC_INDEX('di');
-- words in any case; white space, which may be left out beside signs and behind numbers
EXEC CTX_QUERY.RESULT_SET('di','red','COUNT/Hits 01 to 002/GROUP Price');
EXEC CTX_QUERY.RESULT_SET('di','red','
  hits 1to 2 order by score desc,price
/ count ');
EXEC CTX_QUERY.RESULT_SET('di','red',' count　');
-- no word of a descriptor is kept from being a column
EXEC CTX_QUERY.RESULT_SET('di','red','group hits / group by_ / group n1 / group count$# / hits 1 to 2 order by hits');
EXEC CTX_QUERY.RESULT_SET('di','red','hits 1 to 2 order by hits desc, hits asc');
-- eight parts at most
EXEC CTX_QUERY.RESULT_SET('di','red','count/count/count/count/count/count/count/count');
EXEC CTX_QUERY.RESULT_SET('di','red','count/count/count/count/count/count/count/count/count');
-- E30: what is no descriptor
EXEC CTX_QUERY.RESULT_SET('di','red','');
EXEC CTX_QUERY.RESULT_SET('di','red','count count');
EXEC CTX_QUERY.RESULT_SET('di','red','count / ');
EXEC CTX_QUERY.RESULT_SET('di','red','counts');
EXEC CTX_QUERY.RESULT_SET('di','red','hits');
EXEC CTX_QUERY.RESULT_SET('di','red','hits 1 to');
EXEC CTX_QUERY.RESULT_SET('di','red','hits -1 to 2');
EXEC CTX_QUERY.RESULT_SET('di','red','hits1 to 2');
EXEC CTX_QUERY.RESULT_SET('di','red','hits 1 to2');
EXEC CTX_QUERY.RESULT_SET('di','red','hits 1.0 to 2');
EXEC CTX_QUERY.RESULT_SET('di','red','hits 1 to 2 order price');
EXEC CTX_QUERY.RESULT_SET('di','red','hits 1 to 2 order by');
EXEC CTX_QUERY.RESULT_SET('di','red','hits 1 to 2 order by price,');
EXEC CTX_QUERY.RESULT_SET('di','red','hits 1 to 2 order by price asc desc');
EXEC CTX_QUERY.RESULT_SET('di','red','group');
EXEC CTX_QUERY.RESULT_SET('di','red','group price desc');
EXEC CTX_QUERY.RESULT_SET('di','red','group price, hits');
EXEC CTX_QUERY.RESULT_SET('di','red','group 1');
EXEC CTX_QUERY.RESULT_SET('di','red','group docs.price');
EXEC CTX_QUERY.RESULT_SET('di','red','count -- all');
EXEC CTX_QUERY.RESULT_SET('di','red','group ''price''');
EXEC CTX_QUERY.RESULT_SET('di','red','group abcdefghijklmnopqrstuvwxyz_2345');
EXEC CTX_QUERY.RESULT_SET('no index','red','count');
EXEC CTX_QUERY.RESULT_SET('no index','red AND','hits 2 to 1');
-- E10: the form of the statement
EXEC CTX_QUERY.RESULT_SET('di','red',count);
EXEC CTX_QUERY.RESULT('di','red','count');
SELECT CTX_QUERY.RESULT_SET('di','red','count') FROM docs;
-- E11: the index, and then the columns of a descriptor that is one, in the order of its text; before E27, E13, E30 and E22
EXEC CTX_QUERY.RESULT_SET('nope','red AND','group nono');
EXEC CTX_QUERY.RESULT_SET('nope','red AND','counts');
EXEC CTX_QUERY.RESULT_SET('nope',1);
EXEC CTX_QUERY.RESULT_SET('docs','red','count');
EXEC CTX_QUERY.RESULT_SET('di','red AND','group nope / group nono');
EXEC CTX_QUERY.RESULT_SET('ri','red','hits 0 to 0 order by price, Nope / group body');
EXEC CTX_QUERY.RESULT_SET('ci','red','group nope');
EXEC CTX_QUERY.RESULT_SET('di',1,'group nope');
EXEC CTX_QUERY.RESULT_SET('di','red','group nope',1);
EXEC CTX_QUERY.RESULT_SET('di','red','group score');
EXEC CTX_QUERY.RESULT_SET('di','red','group order');
EXEC CTX_QUERY.RESULT_SET('di','red','hits 1 to 2 order by desc');
EXEC CTX_QUERY.RESULT_SET('di','red','hits 1 to 2 order by asc desc');
EXEC CTX_QUERY.RESULT_SET('di','red','hits 1 to 2 order by id, nope desc');
-- E27: an index of another kind
EXEC CTX_QUERY.RESULT_SET('ri','red','count');
EXEC CTX_QUERY.RESULT_SET('ci','red AND','counts');
EXEC CTX_QUERY.RESULT_SET('ri','red');
EXEC CTX_QUERY.RESULT_SET('ci','red','group body');
-- E13: arguments of other kinds, too many or too few; a CLOB
EXEC CTX_QUERY.RESULT_SET('di','red');
EXEC CTX_QUERY.RESULT_SET('di','red','counts',1);
EXEC CTX_QUERY.RESULT_SET('di',1,'counts');
EXEC CTX_QUERY.RESULT_SET('di','red AND',99999999999999999999);
EXEC CTX_QUERY.RESULT_SET();
EXEC CTX_QUERY.RESULT_SET('di','red AND','hits 2 to 1 / group body');
EXEC CTX_QUERY.RESULT_SET('di','red','hits 1 to 2 order by score, body desc');
-- E22: hits are counted from 1 to 100,000, and the first isn't behind the last
EXEC CTX_QUERY.RESULT_SET('di','red AND','hits 0 to 2');
EXEC CTX_QUERY.RESULT_SET('di','red','hits 2 to 1');
EXEC CTX_QUERY.RESULT_SET('di','red','hits 1 to 100001');
EXEC CTX_QUERY.RESULT_SET('di','red','count / hits 1 to 99999999999999999999999');
EXEC CTX_QUERY.RESULT_SET('di','red','hits 99999999999999999999998 to 99999999999999999999999');
EXEC CTX_QUERY.RESULT_SET('di','red','hits 2 to 100000 / hits 0000000000000000000000001 to 1');
-- last the faults of the query
EXEC CTX_QUERY.RESULT_SET('di','red AND','count');
EXEC CTX_QUERY.RESULT_SET('di','','count');
EXEC CTX_QUERY.RESULT_SET('di','red, blue','count');
EXEC CTX_QUERY.RESULT_SET('di','red*0','count');
EXEC CTX_QUERY.RESULT_SET('di','red WITHIN title','count');
EXEC CTX_QUERY.RESULT_SET('di','SYN(red)','count');
EXEC CTX_QUERY.RESULT_SET('di','red = {a-b}','count');
EXEC CTX_QUERY.RESULT_SET('di','((((((((((((((((((((((((((((((((( red','count');
