-- a cycle; a thesaurus that isn't there, and none that is called default
EXEC CTX_THES.CREATE_THESAURUS('th');
EXEC CTX_THES.CREATE_RELATION('th','dog','BT','animal');
EXEC CTX_THES.CREATE_RELATION('th','animal','BT','dog');
CREATE TABLE docs (id NUMBER PRIMARY KEY, body CLOB, price NUMBER);
CREATE INDEX di ON docs(body) INDEXTYPE IS CTXSYS.CONTEXT;
INSERT INTO docs VALUES (1,'dog',0);
INSERT INTO docs VALUES (2,'animal',0);
INSERT INTO docs VALUES (3,'cat',0);
EXEC CTX_DDL.SYNC_INDEX('di');
SELECT id, SCORE(1) FROM docs WHERE CONTAINS(body,'BT(dog,5,th)',1) > 0;
SELECT id, SCORE(1) FROM docs WHERE CONTAINS(body,'BT(dog,99,th)',1) > 0;
SELECT id, SCORE(1) FROM docs WHERE CONTAINS(body,'NT(dog,th)',1) > 0;
SELECT id, SCORE(1) FROM docs WHERE CONTAINS(body,'BT(cat,5,th)',1) > 0;
SELECT id, SCORE(1) FROM docs WHERE CONTAINS(body,'SYN(dog,th)',1) > 0;
SELECT id, SCORE(1) FROM docs WHERE CONTAINS(body,'BT(dog,1,nope)',1) > 0;
SELECT id, SCORE(1) FROM docs WHERE CONTAINS(body,'SYN(dog)',1) > 0;
-- broader and narrower terms by levels; NT is BT the other way round
EXEC CTX_THES.CREATE_THESAURUS('animals',FALSE);
EXEC CTX_THES.CREATE_RELATION('animals','poodle','BT','dog');
EXEC CTX_THES.CREATE_RELATION('animals','dog','BT','canine');
EXEC CTX_THES.CREATE_RELATION('animals','mammal','NT','canine');
EXEC CTX_THES.CREATE_RELATION('animals','mammal','BT','animal');
EXEC CTX_THES.CREATE_RELATION('animals','feline','NT','cat');
EXEC CTX_THES.CREATE_RELATION('animals','feline','BT','mammal');
CREATE TABLE pets (id NUMBER PRIMARY KEY, body CLOB);
INSERT INTO pets VALUES (1,'poodle');
INSERT INTO pets VALUES (2,'dog dog hound');
INSERT INTO pets VALUES (3,'canine');
INSERT INTO pets VALUES (4,'mammal');
INSERT INTO pets VALUES (5,'animal');
INSERT INTO pets VALUES (6,'cat');
INSERT INTO pets VALUES (7,'feline feline feline');
INSERT INTO pets VALUES (8,'hound');
INSERT INTO pets VALUES (9,'tyke');
INSERT INTO pets VALUES (10,'pooch pooch');
CREATE INDEX pi ON pets(body) INDEXTYPE IS CTXSYS.CONTEXT;
SELECT id, SCORE(1) FROM pets WHERE CONTAINS(body,'BT(poodle,animals)',1) > 0;
SELECT id, SCORE(1) FROM pets WHERE CONTAINS(body,'BT(poodle,1,animals)',1) > 0;
SELECT id, SCORE(1) FROM pets WHERE CONTAINS(body,'BT(poodle,2,animals)',1) > 0;
SELECT id, SCORE(1) FROM pets WHERE CONTAINS(body,'bt ( Poodle , 03 , Animals )',1) > 0;
SELECT id, SCORE(1) FROM pets WHERE CONTAINS(body,'BT(poodle,4,animals)',1) > 0;
SELECT id, SCORE(1) FROM pets WHERE CONTAINS(body,'BT(poodle,99,animals)',1) > 0;
SELECT id, SCORE(1) FROM pets WHERE CONTAINS(body,'BT(cat,2,animals)',1) > 0;
SELECT id, SCORE(1) FROM pets WHERE CONTAINS(body,'BT(animal,99,animals)',1) > 0;
SELECT id, SCORE(1) FROM pets WHERE CONTAINS(body,'NT(mammal,animals)',1) > 0;
SELECT id, SCORE(1) FROM pets WHERE CONTAINS(body,'NT(mammal,2,animals)',1) > 0;
SELECT id, SCORE(1) FROM pets WHERE CONTAINS(body,'NT(mammal,3,animals)',1) > 0;
SELECT id, SCORE(1) FROM pets WHERE CONTAINS(body,'NT(animal,animals)',1) > 0;
SELECT id, SCORE(1) FROM pets WHERE CONTAINS(body,'NT(poodle,99,animals)',1) > 0;
-- synonyms by any number of steps, both ways; PT is one step, and its term stands in place of the other
EXEC CTX_THES.CREATE_RELATION('animals','dog','SYN','hound');
EXEC CTX_THES.CREATE_RELATION('animals','pooch','SYN','hound');
EXEC CTX_THES.CREATE_RELATION('animals','tyke','SYN','pooch');
EXEC CTX_THES.CREATE_RELATION('animals','pooch','PT','dog');
EXEC CTX_THES.CREATE_RELATION('animals','tyke','USE','hound');
EXEC CTX_THES.CREATE_RELATION('animals','hound','PT','dog');
SELECT id, SCORE(1) FROM pets WHERE CONTAINS(body,'SYN(dog,animals)',1) > 0;
SELECT id, SCORE(1) FROM pets WHERE CONTAINS(body,'SYN(tyke,animals)',1) > 0;
SELECT id, SCORE(1) FROM pets WHERE CONTAINS(body,'SYN(cat,animals)',1) > 0;
SELECT id, SCORE(1) FROM pets WHERE CONTAINS(body,'SYN(bird,animals)',1) > 0;
SELECT id, SCORE(1) FROM pets WHERE CONTAINS(body,'PT(pooch,animals)',1) > 0;
SELECT id, SCORE(1) FROM pets WHERE CONTAINS(body,'PT(dog,animals)',1) > 0;
SELECT id, SCORE(1) FROM pets WHERE CONTAINS(body,'PT(tyke,animals)',1) > 0;
SELECT id, SCORE(1) FROM pets WHERE CONTAINS(body,'PT(cat,animals)',1) > 0;
SELECT id, SCORE(1) FROM pets WHERE CONTAINS(body,'BT(hound,99,animals)',1) > 0;
-- a term with itself
EXEC CTX_THES.CREATE_RELATION('animals','cat','SYN','Cat');
EXEC CTX_THES.CREATE_RELATION('animals','cat','PT','cat');
EXEC CTX_THES.CREATE_RELATION('animals','cat','BT','cat');
EXEC CTX_THES.CREATE_RELATION('animals','cat','NT','cat');
SELECT id, SCORE(1) FROM pets WHERE CONTAINS(body,'SYN(cat,animals)',1) > 0;
SELECT id, SCORE(1) FROM pets WHERE CONTAINS(body,'PT(cat,animals)',1) > 0;
SELECT id, SCORE(1) FROM pets WHERE CONTAINS(body,'BT(cat,animals)',1) > 0;
-- beside operators, and as an operand of NEAR
SELECT id, SCORE(1) FROM pets WHERE CONTAINS(body,'SYN(dog,animals) NOT PT(pooch,animals)',1) > 0;
SELECT id, SCORE(1) FROM pets WHERE CONTAINS(body,'SYN(dog,animals) AND hound',1) > 0;
SELECT id, SCORE(1) FROM pets WHERE CONTAINS(body,'SYN(dog,animals) - dog',1) > 0;
SELECT id, SCORE(1) FROM pets WHERE CONTAINS(body,'SYN(dog,animals)*3 | cat',1) > 0;
SELECT id, SCORE(1) FROM pets WHERE CONTAINS(body,'SYN(dog,animals) > 1',1) > 0;
SELECT id, SCORE(1) FROM pets WHERE CONTAINS(body,'NEAR((SYN(pooch,animals),dog),0)',1) > 0;
SELECT id, SCORE(1) FROM pets WHERE CONTAINS(body,'NEAR((PT(tyke,animals),dog),1,TRUE)',1) > 0;
SELECT id, SCORE(1) FROM pets WHERE CONTAINS(body,'NEAR((dog,PT(tyke,animals)),1,TRUE)',1) > 0;
SELECT id, SCORE(1) FROM pets WHERE CONTAINS(body,'(BT(poodle,animals) OR cat) ; hound',1) > 0;
-- a relation is seen by the next query, without a synchronisation
EXEC CTX_THES.CREATE_RELATION('animals','feline','SYN','cat');
SELECT id, SCORE(1) FROM pets WHERE CONTAINS(body,'SYN(cat,animals)',1) > 0;
-- without a name it is the thesaurus called default; thesauri don't know of each other
EXEC CTX_THES.CREATE_THESAURUS('Default');
SELECT id, SCORE(1) FROM pets WHERE CONTAINS(body,'SYN(dog)',1) > 0;
EXEC CTX_THES.CREATE_RELATION('default','dog','SYN','cat');
SELECT id, SCORE(1) FROM pets WHERE CONTAINS(body,'SYN(dog)',1) > 0;
SELECT id, SCORE(1) FROM pets WHERE CONTAINS(body,'syn(DOG, default)',1) > 0;
SELECT id, SCORE(1) FROM pets WHERE CONTAINS(body,'BT(dog)',1) > 0;
SELECT id, SCORE(1) FROM pets WHERE CONTAINS(body,'BT(dog,2)',1) > 0;
SELECT id, SCORE(1) FROM pets WHERE CONTAINS(body,'SYN(dog,th)',1) > 0;
-- terms of several words, and how they are spelt
INSERT INTO pets VALUES (11,'a guide dog, a guide dog');
INSERT INTO pets VALUES (12,'the seeing-eye dog');
INSERT INTO pets VALUES (13,'a dog, a guide');
INSERT INTO pets VALUES (14,'Große Straße');
INSERT INTO pets VALUES (15,'road');
EXEC CTX_DDL.SYNC_INDEX('pi');
EXEC CTX_THES.CREATE_RELATION('animals','guide dog','SYN','seeing-eye dog');
EXEC CTX_THES.CREATE_RELATION('animals','STRASSE','SYN','Road');
SELECT id, SCORE(1) FROM pets WHERE CONTAINS(body,'SYN(guide dog,animals)',1) > 0;
SELECT id, SCORE(1) FROM pets WHERE CONTAINS(body,'SYN({  Guide   dog },animals)',1) > 0;
SELECT id, SCORE(1) FROM pets WHERE CONTAINS(body,'SYN({guide}
 d\og,animals)',1) > 0;
SELECT id, SCORE(1) FROM pets WHERE CONTAINS(body,'SYN(guide　dog,animals)',1) > 0;
SELECT id, SCORE(1) FROM pets WHERE CONTAINS(body,'SYN(seeing\-eye dog,animals)',1) > 0;
SELECT id, SCORE(1) FROM pets WHERE CONTAINS(body,'SYN(seeing eye dog,animals)',1) > 0;
SELECT id, SCORE(1) FROM pets WHERE CONTAINS(body,'SYN(guide,animals)',1) > 0;
SELECT id, SCORE(1) FROM pets WHERE CONTAINS(body,'SYN(straße,animals)',1) > 0;
SELECT id, SCORE(1) FROM pets WHERE CONTAINS(body,'große AND SYN(road,animals)',1) > 0;
-- no term: such an operator is nothing, where its thesaurus is there
SELECT id, SCORE(1) FROM pets WHERE CONTAINS(body,'SYN({},animals)',1) > 0;
SELECT id, SCORE(1) FROM pets WHERE CONTAINS(body,'SYN({   },animals) OR cat',1) > 0;
SELECT id, SCORE(1) FROM pets WHERE CONTAINS(body,'cat NOT SYN({},animals)',1) > 0;
SELECT id, SCORE(1) FROM pets WHERE CONTAINS(body,'SYN({} {},animals)',1) > 0;
SELECT id, SCORE(1) FROM pets WHERE CONTAINS(body,'SYN({},nope)',1) > 0;
-- one without a word for the lexer
SELECT id, SCORE(1) FROM pets WHERE CONTAINS(body,'SYN(+,animals) OR cat',1) > 0;
-- what is dropped leaves the thesauri as they are
DROP TABLE docs;
DROP INDEX pi;
CREATE INDEX pj ON pets(body) INDEXTYPE IS CONTEXT;
SELECT id, SCORE(1) FROM pets WHERE CONTAINS(body,'NT(mammal,animals)',1) > 0;
