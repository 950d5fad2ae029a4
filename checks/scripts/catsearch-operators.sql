-- rows with each of the eight sets of three words: ant counts 1 in the key, bee 2 and cow 4. So a search shows its truth table
CREATE TABLE sets (id NUMBER PRIMARY KEY, body VARCHAR2(40));
CREATE INDEX si ON sets(body) INDEXTYPE IS CTXSYS.CTXCAT;
INSERT INTO sets VALUES (0,'');
INSERT INTO sets VALUES (1,'ant');
INSERT INTO sets VALUES (2,'bee');
INSERT INTO sets VALUES (3,'bee ant');
INSERT INTO sets VALUES (4,'cow');
INSERT INTO sets VALUES (5,'ant cow ant');
INSERT INTO sets VALUES (6,'cow, bee');
INSERT INTO sets VALUES (7,'cow bee ant');
-- side by side all, `|` any, `-` without
SELECT id FROM sets WHERE CATSEARCH(body,'ant',NULL) > 0;
SELECT id FROM sets WHERE CATSEARCH(body,'ant bee',NULL) > 0;
SELECT id FROM sets WHERE CATSEARCH(body,'cow ant bee',NULL) > 0;
SELECT id FROM sets WHERE CATSEARCH(body,'ant | bee',NULL) > 0;
SELECT id FROM sets WHERE CATSEARCH(body,'ant|bee|cow',NULL) > 0;
SELECT id FROM sets WHERE CATSEARCH(body,'ant - bee',NULL) > 0;
SELECT id FROM sets WHERE CATSEARCH(body,'ant - bee - cow',NULL) > 0;
SELECT id FROM sets WHERE CATSEARCH(body,'ant ant',NULL) > 0;
SELECT id FROM sets WHERE CATSEARCH(body,'ant | ant',NULL) > 0;
SELECT id FROM sets WHERE CATSEARCH(body,'ant - ant',NULL) > 0;
-- side by side and `-` bind alike, from left to right, and before `|`
SELECT id FROM sets WHERE CATSEARCH(body,'ant bee | cow',NULL) > 0;
SELECT id FROM sets WHERE CATSEARCH(body,'ant | bee cow',NULL) > 0;
SELECT id FROM sets WHERE CATSEARCH(body,'ant - bee cow',NULL) > 0;
SELECT id FROM sets WHERE CATSEARCH(body,'ant cow - bee',NULL) > 0;
SELECT id FROM sets WHERE CATSEARCH(body,'ant - bee | cow',NULL) > 0;
SELECT id FROM sets WHERE CATSEARCH(body,'ant | bee - cow',NULL) > 0;
SELECT id FROM sets WHERE CATSEARCH(body,'ant - bee | bee - ant',NULL) > 0;
-- parentheses, with white space around them and without
SELECT id FROM sets WHERE CATSEARCH(body,'(ant | bee) cow',NULL) > 0;
SELECT id FROM sets WHERE CATSEARCH(body,'ant(bee|cow)',NULL) > 0;
SELECT id FROM sets WHERE CATSEARCH(body,'(ant)bee(cow)',NULL) > 0;
SELECT id FROM sets WHERE CATSEARCH(body,'( ( ant ) )|((bee)cow)',NULL) > 0;
SELECT id FROM sets WHERE CATSEARCH(body,'ant - (bee cow)',NULL) > 0;
SELECT id FROM sets WHERE CATSEARCH(body,'ant - (bee | cow)',NULL) > 0;
SELECT id FROM sets WHERE CATSEARCH(body,'ant - (bee - cow)',NULL) > 0;
SELECT id FROM sets WHERE CATSEARCH(body,'(ant | bee) - cow',NULL) > 0;
SELECT id FROM sets WHERE CATSEARCH(body,'(ant | bee) - (ant bee)',NULL) > 0;
SELECT id FROM sets WHERE CATSEARCH(body,'(ant | bee | cow) - (ant bee | ant cow | bee cow)',NULL) > 0;
SELECT id FROM sets WHERE CATSEARCH(body,'ant bee | ant cow | bee cow',NULL) > 0;
SELECT id FROM sets WHERE CATSEARCH(body,'cow - (bee - (ant - (cow - bee)))',NULL) > 0;
SELECT COUNT(*) FROM sets WHERE CATSEARCH(body,'(ant | bee) (bee | cow) (cow | ant)',NULL) > 0;
-- a `-` has white space or an end of the text on both sides, or else is a word, which has no token and is left out
SELECT id FROM sets WHERE CATSEARCH(body,'ant -bee',NULL) > 0;
SELECT id FROM sets WHERE CATSEARCH(body,'ant- bee',NULL) > 0;
SELECT id FROM sets WHERE CATSEARCH(body,'ant -(bee)',NULL) > 0;
SELECT id FROM sets WHERE CATSEARCH(body,'(ant)- bee',NULL) > 0;
SELECT id FROM sets WHERE CATSEARCH(body,'ant -"bee"',NULL) > 0;
SELECT id FROM sets WHERE CATSEARCH(body,'ant|- bee',NULL) > 0;
SELECT id FROM sets WHERE CATSEARCH(body,'(ant - (bee) | (-) cow)',NULL) > 0;
SELECT id FROM sets WHERE CATSEARCH(body,'ant -- bee',NULL) > 0;
SELECT id FROM sets WHERE CATSEARCH(body,'ant - -bee',NULL) > 0;
SELECT id FROM sets WHERE CATSEARCH(body,'-ant',NULL) > 0;
SELECT id FROM sets WHERE CATSEARCH(body,'ant
-	bee',NULL) > 0;
SELECT id FROM sets WHERE CATSEARCH(body,'ant - bee　-cow',NULL) > 0;
SELECT id FROM sets WHERE CATSEARCH(body,'ant​-​bee',NULL) > 0;
-- words that other languages of queries have for these are words here, and so are their signs
SELECT id FROM sets WHERE CATSEARCH(body,'ant AND bee',NULL) > 0;
SELECT id FROM sets WHERE CATSEARCH(body,'ant & bee',NULL) > 0;
SELECT id FROM sets WHERE CATSEARCH(body,'ant NOT bee',NULL) > 0;
SELECT id FROM sets WHERE CATSEARCH(body,'ant ~ bee, {cow}',NULL) > 0;
-- what has no token is left out: of a `|` and of words side by side the other one stays; what is taken away from nothing is nothing
SELECT id FROM sets WHERE CATSEARCH(body,'ant ""',NULL) > 0;
SELECT id FROM sets WHERE CATSEARCH(body,'"" | ant',NULL) > 0;
SELECT id FROM sets WHERE CATSEARCH(body,'ant - ""',NULL) > 0;
SELECT id FROM sets WHERE CATSEARCH(body,'"" - ant',NULL) > 0;
SELECT id FROM sets WHERE CATSEARCH(body,'"" - ant bee',NULL) > 0;
SELECT id FROM sets WHERE CATSEARCH(body,'("" - ant) | bee',NULL) > 0;
SELECT id FROM sets WHERE CATSEARCH(body,'ant - ("" - bee)',NULL) > 0;
SELECT id FROM sets WHERE CATSEARCH(body,'ant - ("" | "," bee)',NULL) > 0;
SELECT COUNT(*) FROM sets WHERE CATSEARCH(body,'"" "."| (;) - ant',NULL) > 0;
-- phrases, of words that stand side by side in this order
CREATE TABLE lines (id NUMBER PRIMARY KEY, body VARCHAR2(60));
CREATE INDEX li ON lines(body) INDEXTYPE IS CTXCAT;
INSERT INTO lines VALUES (1,'ant bee cow');
INSERT INTO lines VALUES (2,'cow bee ant');
INSERT INTO lines VALUES (3,'ant cow bee');
INSERT INTO lines VALUES (4,'Ant: Bee');
INSERT INTO lines VALUES (5,'bee cow');
INSERT INTO lines VALUES (6,'ant ant bee bee cow');
INSERT INTO lines VALUES (7,'ant, dog, bee; cow, ant');
INSERT INTO lines VALUES (8,'cow ant-bee-cow');
SELECT id FROM lines WHERE CATSEARCH(body,'"ant bee"',NULL) > 0;
SELECT id FROM lines WHERE CATSEARCH(body,'ant-bee',NULL) > 0;
SELECT id FROM lines WHERE CATSEARCH(body,'"ant bee cow"',NULL) > 0;
SELECT id FROM lines WHERE CATSEARCH(body,'"ant bee" cow',NULL) > 0;
SELECT id FROM lines WHERE CATSEARCH(body,'"ant bee" "bee cow"',NULL) > 0;
SELECT id FROM lines WHERE CATSEARCH(body,'"ant bee" "bee cow" - "ant bee cow"',NULL) > 0;
SELECT id FROM lines WHERE CATSEARCH(body,'"ant bee" | "bee cow"',NULL) > 0;
SELECT id FROM lines WHERE CATSEARCH(body,'"ant bee" | "bee ant" | dog',NULL) > 0;
SELECT id FROM lines WHERE CATSEARCH(body,'cow - ("ant bee" | "cow bee")',NULL) > 0;
SELECT id FROM lines WHERE CATSEARCH(body,'("ant bee" | "bee cow") - ("ant bee" "bee cow")',NULL) > 0;
SELECT id FROM lines WHERE CATSEARCH(body,'ant bee cow - "ant bee" - "bee cow"',NULL) > 0;
SELECT id FROM lines WHERE CATSEARCH(body,'"ant ant" | "bee bee cow"',NULL) > 0;
SELECT id FROM lines WHERE CATSEARCH(body,'"ant ant ant" | "bee bee bee"',NULL) > 0;
SELECT COUNT(*) FROM lines WHERE CATSEARCH(body,'"bee"',NULL) > 0;
-- between quotes a `|`, a `-`, a parenthesis and a `*` are no signs; quotes need no white space around them
SELECT id FROM lines WHERE CATSEARCH(body,'"ant | bee"',NULL) > 0;
SELECT id FROM lines WHERE CATSEARCH(body,'"ant - (bee*) | *cow"',NULL) > 0;
SELECT id FROM lines WHERE CATSEARCH(body,'dog"bee cow"ant',NULL) > 0;
SELECT id FROM lines WHERE CATSEARCH(body,'"cow""ant"',NULL) > 0;
SELECT id FROM lines WHERE CATSEARCH(body,'"cow bee"|"cow ant"',NULL) > 0;
SELECT id FROM lines WHERE CATSEARCH(body,'("bee cow")("cow ant")',NULL) > 0;
SELECT id FROM lines WHERE CATSEARCH(body,'dog - "bee ant"',NULL) > 0;
SELECT id FROM lines WHERE CATSEARCH(body,'"
ant	bee
"',NULL) > 0;
-- what is no query is refused at its first bad place, whatever stands behind that
SELECT id FROM sets WHERE CATSEARCH(body,'|',NULL) > 0;
SELECT id FROM sets WHERE CATSEARCH(body,'-',NULL) > 0;
SELECT id FROM sets WHERE CATSEARCH(body,')',NULL) > 0;
SELECT id FROM sets WHERE CATSEARCH(body,'(',NULL) > 0;
SELECT id FROM sets WHERE CATSEARCH(body,'"',NULL) > 0;
SELECT id FROM sets WHERE CATSEARCH(body,'*',NULL) > 0;
SELECT id FROM sets WHERE CATSEARCH(body,'ant |',NULL) > 0;
SELECT id FROM sets WHERE CATSEARCH(body,'ant | ',NULL) > 0;
SELECT id FROM sets WHERE CATSEARCH(body,'ant | | bee',NULL) > 0;
SELECT id FROM sets WHERE CATSEARCH(body,'ant | - bee',NULL) > 0;
SELECT id FROM sets WHERE CATSEARCH(body,'ant - - bee',NULL) > 0;
SELECT id FROM sets WHERE CATSEARCH(body,'(ant - )',NULL) > 0;
SELECT id FROM sets WHERE CATSEARCH(body,'(ant bee',NULL) > 0;
SELECT id FROM sets WHERE CATSEARCH(body,'(ant))(',NULL) > 0;
SELECT id FROM sets WHERE CATSEARCH(body,'ant ( ) bee',NULL) > 0;
SELECT id FROM sets WHERE CATSEARCH(body,'ant "bee" "cow',NULL) > 0;
SELECT id FROM sets WHERE CATSEARCH(body,'ant "bee (*cow ||',NULL) > 0;
SELECT id FROM sets WHERE CATSEARCH(body,'"ant bee" *cow |',NULL) > 0;
SELECT id FROM sets WHERE CATSEARCH(body,'(*ant)',NULL) > 0;
SELECT id FROM sets WHERE CATSEARCH(body,'"ant"* bee',NULL) > 0;
SELECT id FROM sets WHERE CATSEARCH(body,'　été | 日本 | )',NULL) > 0;
