-- refusals of CTX_THES.CREATE_THESAURUS
EXEC CTX_THES.CREATE_THESAURUS('th');
EXECUTE ctx_thes.create_thesaurus('Select',FALSE);
EXEC CTX_THES.CREATE_THESAURUS('TH');
EXEC CTX_THES.CREATE_THESAURUS('th',TRUE);
EXEC CTX_THES.CREATE_THESAURUS('select','x',1);
EXEC CTX_THES.CREATE_THESAURUS();
EXEC CTX_THES.CREATE_THESAURUS(1);
EXEC CTX_THES.CREATE_THESAURUS(FALSE);
EXEC CTX_THES.CREATE_THESAURUS('no name',0);
EXEC CTX_THES.CREATE_THESAURUS('tu','FALSE');
EXEC CTX_THES.CREATE_THESAURUS('tu',FALSE,FALSE);
EXEC CTX_THES.CREATE_THESAURUS('tu',TRUE);
EXEC CTX_THES.CREATE_THESAURUS('no name');
EXEC CTX_THES.CREATE_THESAURUS(' tu');
EXEC CTX_THES.CREATE_THESAURUS('');
EXEC CTX_THES.CREATE_THESAURUS('aaaaaaaaaaaaaaaaaaaaaaaaaaaaaaa');
EXEC CTX_THES.CREATE_THESAURUS('aaaaaaaaaaaaaaaaaaaaaaaaaaaaaa');
EXEC CTX_THES.CREATE_THESAURUS(tu);
EXEC CTX_THES.DROP_THESAURUS('th');
EXEC CTX_DDL.CREATE_THESAURUS('tu');
-- refusals of CTX_THES.CREATE_RELATION
EXEC CTX_THES.CREATE_RELATION('nope');
EXEC CTX_THES.CREATE_RELATION('nope','','RT',1);
EXEC CTX_THES.CREATE_RELATION('tu','a','BT','b');
EXEC CTX_THES.CREATE_RELATION('no name','a','BT');
EXEC CTX_THES.CREATE_RELATION();
EXEC CTX_THES.CREATE_RELATION('th','a','BT');
EXEC CTX_THES.CREATE_RELATION('th','','RT',5);
EXEC CTX_THES.CREATE_RELATION('th','a','BT','b','c');
EXEC CTX_THES.CREATE_RELATION('th',TRUE,'BT','b');
EXEC CTX_THES.CREATE_RELATION('no name','a','BT','b');
EXEC CTX_THES.CREATE_RELATION('th','a','RT','b');
EXEC CTX_THES.CREATE_RELATION('th','a',' BT','b');
EXEC CTX_THES.CREATE_RELATION('th','a','','b');
EXEC CTX_THES.CREATE_RELATION('th','','BT','b');
EXEC CTX_THES.CREATE_RELATION('th','a','BT','
 　');
-- 256 bytes; 255 with blanks around; 128 letters of two bytes, and 127
EXEC CTX_THES.CREATE_RELATION('th','xxxxxxxxxxxxxxxxxxxxxxxxxxxxxxxxxxxxxxxxxxxxxxxxxxxxxxxxxxxxxxxxxxxxxxxxxxxxxxxxxxxxxxxxxxxxxxxxxxxxxxxxxxxxxxxxxxxxxxxxxxxxxxxxxxxxxxxxxxxxxxxxxxxxxxxxxxxxxxxxxxxxxxxxxxxxxxxxxxxxxxxxxxxxxxxxxxxxxxxxxxxxxxxxxxxxxxxxxxxxxxxxxxxxxxxxxxxxxxxxxxxxxxxxxxxxxxxx','BT','b');
EXEC CTX_THES.CREATE_RELATION('th','  xxxxxxxxxxxxxxxxxxxxxxxxxxxxxxxxxxxxxxxxxxxxxxxxxxxxxxxxxxxxxxxxxxxxxxxxxxxxxxxxxxxxxxxxxxxxxxxxxxxxxxxxxxxxxxxxxxxxxxxxxxxxxxxxxxxxxxxxxxxxxxxxxxxxxxxxxxxxxxxxxxxxxxxxxxxxxxxxxxxxxxxxxxxxxxxxxxxxxxxxxxxxxxxxxxxxxxxxxxxxxxxxxxxxxxxxxxxxxxxxxxxxxxxxxxxxxxx ','BT','b');
EXEC CTX_THES.CREATE_RELATION('th','éééééééééééééééééééééééééééééééééééééééééééééééééééééééééééééééééééééééééééééééééééééééééééééééééééééééééééééééééééééééééééééééé','BT','b');
EXEC CTX_THES.CREATE_RELATION('th','ééééééééééééééééééééééééééééééééééééééééééééééééééééééééééééééééééééééééééééééééééééééééééééééééééééééééééééééééééééééééééééééé','BT','b');
-- a pair that is there, also the other way round; a relation in any case; a term in any case, and with any white space
EXEC CTX_THES.CREATE_RELATION('th','a','bt','b');
EXEC CTX_THES.CREATE_RELATION('Th',' A','Bt','b
');
EXEC CTX_THES.CREATE_RELATION('th','b','NT','a');
EXEC CTX_THES.CREATE_RELATION('th','b','BT','a');
EXEC CTX_THES.CREATE_RELATION('th','a','nt','b');
EXEC CTX_THES.CREATE_RELATION('th','a','BT','b',1);
EXEC CTX_THES.CREATE_RELATION('th','a','SYN','b');
EXEC CTX_THES.CREATE_RELATION('th','b','syn','a');
EXEC CTX_THES.CREATE_RELATION('th','Guide  Dog','SYN','seeing-eye dog');
EXEC CTX_THES.CREATE_RELATION('th','seeing-eye　dog','SYN','guide DOG');
EXEC CTX_THES.CREATE_RELATION('th','seeing eye dog','SYN','guide dog');
EXEC CTX_THES.CREATE_RELATION('th','Straße','SYN','café');
EXEC CTX_THES.CREATE_RELATION('th','STRASSE','SYN','CAFÉ');
EXEC CTX_THES.CREATE_RELATION('th','strasse','SYN','cafe');
-- a term has one preferred term; USE is PT
EXEC CTX_THES.CREATE_RELATION('th','a','PT','b');
EXEC CTX_THES.CREATE_RELATION('th','a','use','b');
EXEC CTX_THES.CREATE_RELATION('th','A','PT','c');
EXEC CTX_THES.CREATE_RELATION('th','a','USE','a');
EXEC CTX_THES.CREATE_RELATION('th','a','PT','c',TRUE);
EXEC CTX_THES.CREATE_RELATION('th','b','USE','a');
EXEC CTX_THES.CREATE_RELATION('th','c','PT','a');
-- without a second term there is no pair that could be there
EXEC CTX_THES.CREATE_RELATION('th','a','PT');
EXEC CTX_THES.CREATE_RELATION('th','a','PT',1);
EXEC CTX_THES.CREATE_RELATION('th','a','PT','');
-- the term is shown as a text is printed
EXEC CTX_THES.CREATE_RELATION('th','A|b  \c','SYN','d');
EXEC CTX_THES.CREATE_RELATION('th','a|B \C','SYN','d');
EXEC CTX_THES.CREATE_RELATION('th','it''s','SYN','d');
EXEC CTX_THES.CREATE_RELATION('th','IT''S','SYN','d');
-- what was refused has changed nothing, and each thesaurus has its own pairs
CREATE TABLE docs (id NUMBER PRIMARY KEY, body CLOB);
CREATE INDEX di ON docs(body) INDEXTYPE IS CTXSYS.CONTEXT;
INSERT INTO docs VALUES (1,'a');
INSERT INTO docs VALUES (2,'b');
INSERT INTO docs VALUES (3,'c');
INSERT INTO docs VALUES (4,'a|b \c');
INSERT INTO docs VALUES (5,'d');
EXEC CTX_DDL.SYNC_INDEX('di');
SELECT id, SCORE(1) FROM docs WHERE CONTAINS(body,'SYN(a,th)',1) > 0;
SELECT id, SCORE(1) FROM docs WHERE CONTAINS(body,'PT(a,th)',1) > 0;
SELECT id, SCORE(1) FROM docs WHERE CONTAINS(body,'PT(c,th)',1) > 0;
SELECT id, SCORE(1) FROM docs WHERE CONTAINS(body,'NT(b,th)',1) > 0;
SELECT id, SCORE(1) FROM docs WHERE CONTAINS(body,'SYN(d,th)',1) > 0;
SELECT id, SCORE(1) FROM docs WHERE CONTAINS(body,'SYN(a,select)',1) > 0;
