-- zones p and q, the visible field v, the invisible field t, sentences and paragraphs; `the` and `is` are stopwords
EXEC CTX_DDL.CREATE_SECTION_GROUP('g','BASIC_SECTION_GROUP');
EXEC CTX_DDL.ADD_ZONE_SECTION('g','p','P');
EXEC CTX_DDL.ADD_ZONE_SECTION('g','q','Q');
EXEC CTX_DDL.ADD_FIELD_SECTION('g','v','V',TRUE);
EXEC CTX_DDL.ADD_FIELD_SECTION('g','t','T');
EXEC CTX_DDL.ADD_SPECIAL_SECTION('g','SENTENCE');
EXEC CTX_DDL.ADD_SPECIAL_SECTION('g','PARAGRAPH');
EXEC CTX_DDL.CREATE_STOPLIST('sl');
EXEC CTX_DDL.ADD_STOPWORD('sl','the');
EXEC CTX_DDL.ADD_STOPWORD('sl','Is');
CREATE TABLE docs (id NUMBER PRIMARY KEY, body CLOB, price NUMBER);
INSERT INTO docs VALUES (-1,'The quick red fox. A slow blue fox is red. <T>quick hidden fox</T>',5);
INSERT INTO docs VALUES (2,'<Q>one <P>red fox</P> two</Q> <P>blue fox, blue dog</P> three',1);
CREATE INDEX di ON docs(body) INDEXTYPE IS CTXSYS.CONTEXT PARAMETERS ('STOPLIST sl SECTION GROUP g');
INSERT INTO docs VALUES (3,'Red one, red two, red three; web-site.
 Blue four.
A last line has a red-blue web.',3);
INSERT INTO docs VALUES (4,'red red red red red red red red red red red red red red red red red red red red red red red red red red red red red red red red red red red red red red red red red red red red red red red red red red red red red red red red red red red red red red red red red red red red red red red red red red red red red red red red red red red red red red red red red red red red red red red red red red red red red',4);
INSERT INTO docs VALUES (5,'<V>quick seen</V> jack grew big. Jack is big, jack big <V>blue</V>',2);
INSERT INTO docs VALUES (6,'red fox, gone',6);
INSERT INTO docs VALUES (7,'red fox, and later green',7);
EXEC CTX_DDL.SYNC_INDEX('di');
-- a row that is gone, one that waits by its change, and one that waits since it is new: no query finds them
DELETE FROM docs WHERE id = 6;
UPDATE docs SET body = 'red fox' WHERE id = 7;
INSERT INTO docs VALUES (8,'red fox',8);
-- AND, OR
SELECT id, SCORE(1) FROM docs WHERE CONTAINS(body,'red AND fox',1) > 0;
SELECT id, SCORE(1) FROM docs WHERE CONTAINS(body,'red & blue & fox',1) > 0;
SELECT id, SCORE(1) FROM docs WHERE CONTAINS(body,'red OR green',1) > 0;
SELECT id, SCORE(1) FROM docs WHERE CONTAINS(body,'fox | blue',1) > 0;
SELECT id, SCORE(1) FROM docs WHERE CONTAINS(body,'quick OR red AND fox',1) > 0;
SELECT id, SCORE(1) FROM docs WHERE CONTAINS(body,'(quick OR red) AND fox',1) > 0;
-- NOT, MINUS
SELECT id, SCORE(1) FROM docs WHERE CONTAINS(body,'red NOT fox',1) > 0;
SELECT id, SCORE(1) FROM docs WHERE CONTAINS(body,'red ~ blue ~ fox',1) > 0;
SELECT id, SCORE(1) FROM docs WHERE CONTAINS(body,'red MINUS fox',1) > 0;
SELECT id, SCORE(1) FROM docs WHERE CONTAINS(body,'red - one - two',1) > 0;
SELECT id, SCORE(1) FROM docs WHERE CONTAINS(body,'red - (blue - fox)',1) > 0;
SELECT id, SCORE(1) FROM docs WHERE CONTAINS(body,'fox MINUS red',1) > 0;
-- EQUIV
SELECT id, SCORE(1) FROM docs WHERE CONTAINS(body,'red = blue',1) > 0;
SELECT id, SCORE(1) FROM docs WHERE CONTAINS(body,'red = fox = quick - red',1) > 0;
SELECT id, SCORE(1) FROM docs WHERE CONTAINS(body,'fox = none',1) > 0;
SELECT id, SCORE(1) FROM docs WHERE CONTAINS(body,'hidden = seen',1) > 0;
-- weights and thresholds
SELECT id, SCORE(1) FROM docs WHERE CONTAINS(body,'fox * 10',1) > 0;
SELECT id, SCORE(1) FROM docs WHERE CONTAINS(body,'red*.1',1) > 0;
SELECT id, SCORE(1) FROM docs WHERE CONTAINS(body,'red * 1.5 * 10',1) > 0;
SELECT id, SCORE(1) FROM docs WHERE CONTAINS(body,'fox > 1',1) > 0;
SELECT id, SCORE(1) FROM docs WHERE CONTAINS(body,'red > 1 AND blue',1) > 0;
SELECT id, SCORE(1) FROM docs WHERE CONTAINS(body,'(red OR blue) > 2 * .5',1) > 0;
SELECT id, SCORE(1) FROM docs WHERE CONTAINS(body,'red > 100',1) > 0;
SELECT id, SCORE(1) FROM docs WHERE CONTAINS(body,'fox*10 > 19',1) > 0;
-- phrases: signs don't part words, occurrences may overlap, and a stopword takes any one word
SELECT id, SCORE(1) FROM docs WHERE CONTAINS(body,'red fox',1) > 0;
SELECT id, SCORE(1) FROM docs WHERE CONTAINS(body,'fox red',1) > 0;
SELECT id, SCORE(1) FROM docs WHERE CONTAINS(body,'red red',1) > 0;
SELECT id, SCORE(1) FROM docs WHERE CONTAINS(body,'web\-site',1) > 0;
SELECT id, SCORE(1) FROM docs WHERE CONTAINS(body,'{red-blue} web',1) > 0;
SELECT id, SCORE(1) FROM docs WHERE CONTAINS(body,'red = blue fox',1) > 0;
SELECT id, SCORE(1) FROM docs WHERE CONTAINS(body,'jack is big',1) > 0;
SELECT id, SCORE(1) FROM docs WHERE CONTAINS(body,'is jack the is',1) > 0;
SELECT id, SCORE(1) FROM docs WHERE CONTAINS(body,'jack is is big',1) > 0;
SELECT id, SCORE(1) FROM docs WHERE CONTAINS(body,'big jack',1) > 0;
SELECT id, SCORE(1) FROM docs WHERE CONTAINS(body,'fox three OR quick hidden',1) > 0;
SELECT id, SCORE(1) FROM docs WHERE CONTAINS(body,'quick . red',1) > 0;
-- stopwords beside operators
SELECT id, SCORE(1) FROM docs WHERE CONTAINS(body,'is',1) > 0;
SELECT id, SCORE(1) FROM docs WHERE CONTAINS(body,'the AND fox',1) > 0;
SELECT id, SCORE(1) FROM docs WHERE CONTAINS(body,'fox NOT the',1) > 0;
SELECT id, SCORE(1) FROM docs WHERE CONTAINS(body,'the NOT fox',1) > 0;
SELECT id, SCORE(1) FROM docs WHERE CONTAINS(body,'the = fox',1) > 0;
SELECT id, SCORE(1) FROM docs WHERE CONTAINS(body,'the ; fox',1) > 0;
SELECT id, SCORE(1) FROM docs WHERE CONTAINS(body,'the * 2 > 1',1) > 0;
SELECT id, SCORE(1) FROM docs WHERE CONTAINS(body,'is OR the OR +',1) > 0;
-- NEAR as an operator and as a function
SELECT id, SCORE(1) FROM docs WHERE CONTAINS(body,'quick ; slow',1) > 0;
SELECT id, SCORE(1) FROM docs WHERE CONTAINS(body,'red NEAR dog',1) > 0;
SELECT id, SCORE(1) FROM docs WHERE CONTAINS(body,'(dog OR site) ; (one OR three)',1) > 0;
SELECT id, SCORE(1) FROM docs WHERE CONTAINS(body,'NEAR((quick, red), 0)',1) > 0;
SELECT id, SCORE(1) FROM docs WHERE CONTAINS(body,'NEAR((quick, red), 1)',1) > 0;
SELECT id, SCORE(1) FROM docs WHERE CONTAINS(body,'NEAR((red, quick), 1, TRUE)',1) > 0;
SELECT id, SCORE(1) FROM docs WHERE CONTAINS(body,'NEAR((quick, red), 1, TRUE)',1) > 0;
SELECT id, SCORE(1) FROM docs WHERE CONTAINS(body,'NEAR((fox, fox), 0)',1) > 0;
SELECT id, SCORE(1) FROM docs WHERE CONTAINS(body,'NEAR((fox, fox), 100, TRUE)',1) > 0;
SELECT id, SCORE(1) FROM docs WHERE CONTAINS(body,'NEAR((red fox, blue fox), 5)',1) > 0;
SELECT id, SCORE(1) FROM docs WHERE CONTAINS(body,'NEAR((red fox, blue fox), 4)',1) > 0;
SELECT id, SCORE(1) FROM docs WHERE CONTAINS(body,'NEAR((one OR four, two OR web, three), 4, FALSE)',1) > 0;
SELECT id, SCORE(1) FROM docs WHERE CONTAINS(body,'NEAR((fox, the), 3)',1) > 0;
SELECT id, SCORE(1) FROM docs WHERE CONTAINS(body,'NEAR((red, red red), 1, TRUE) * .2',1) > 0;
SELECT id, SCORE(1) FROM docs WHERE CONTAINS(body,'NEAR((red, red red), 2, TRUE) * .2',1) > 0;
SELECT id, SCORE(1) FROM docs WHERE CONTAINS(body,'NEAR((site, four), 2)',1) > 0;
SELECT id, SCORE(1) FROM docs WHERE CONTAINS(body,'red ; fox - fox',1) > 0;
-- WITHIN a zone, a field, a sentence and a paragraph
SELECT id, SCORE(1) FROM docs WHERE CONTAINS(body,'fox WITHIN p',1) > 0;
SELECT id, SCORE(1) FROM docs WHERE CONTAINS(body,'(fox AND dog) WITHIN p',1) > 0;
SELECT id, SCORE(1) FROM docs WHERE CONTAINS(body,'(red AND dog) WITHIN p',1) > 0;
SELECT id, SCORE(1) FROM docs WHERE CONTAINS(body,'blue fox WITHIN P',1) > 0;
SELECT id, SCORE(1) FROM docs WHERE CONTAINS(body,'fox NOT dog WITHIN p',1) > 0;
SELECT id, SCORE(1) FROM docs WHERE CONTAINS(body,'(fox WITHIN p) WITHIN q',1) > 0;
SELECT id, SCORE(1) FROM docs WHERE CONTAINS(body,'(one WITHIN p) WITHIN q',1) > 0;
SELECT id, SCORE(1) FROM docs WHERE CONTAINS(body,'dog WITHIN p AND red WITHIN q',1) > 0;
SELECT id, SCORE(1) FROM docs WHERE CONTAINS(body,'quick WITHIN v',1) > 0;
SELECT id, SCORE(1) FROM docs WHERE CONTAINS(body,'quick WITHIN t',1) > 0;
SELECT id, SCORE(1) FROM docs WHERE CONTAINS(body,'quick hidden WITHIN t',1) > 0;
SELECT id, SCORE(1) FROM docs WHERE CONTAINS(body,'(quick ; fox) WITHIN t',1) > 0;
SELECT id, SCORE(1) FROM docs WHERE CONTAINS(body,'seen blue WITHIN v',1) > 0;
SELECT id, SCORE(1) FROM docs WHERE CONTAINS(body,'(blue OR quick) WITHIN v',1) > 0;
SELECT id, SCORE(1) FROM docs WHERE CONTAINS(body,'(red AND slow) WITHIN SENTENCE',1) > 0;
SELECT id, SCORE(1) FROM docs WHERE CONTAINS(body,'(quick AND fox) WITHIN SENTENCE',1) > 0;
SELECT id, SCORE(1) FROM docs WHERE CONTAINS(body,'(red AND blue) WITHIN sentence',1) > 0;
SELECT id, SCORE(1) FROM docs WHERE CONTAINS(body,'red > 2 WITHIN sentence',1) > 0;
SELECT id, SCORE(1) FROM docs WHERE CONTAINS(body,'(hidden WITHIN SENTENCE) WITHIN t',1) > 0;
SELECT id, SCORE(1) FROM docs WHERE CONTAINS(body,'(red AND four) WITHIN PARAGRAPH',1) > 0;
SELECT id, SCORE(1) FROM docs WHERE CONTAINS(body,'(four AND last) WITHIN PARAGRAPH',1) > 0;
SELECT id, SCORE(1) FROM docs WHERE CONTAINS(body,'(one AND four) WITHIN PARAGRAPH',1) > 0;
SELECT id, SCORE(1) FROM docs WHERE CONTAINS(body,'NEAR((site, four), 2) WITHIN SENTENCE',1) > 0;
SELECT id, SCORE(1) FROM docs WHERE CONTAINS(body,'(fox WITHIN p) * 10 - fox',1) > 0;
-- conditions beside a query, and the number of the rows
SELECT id, price FROM docs WHERE CONTAINS(body,'red OR quick') > 1 AND price < 4;
SELECT COUNT(*) FROM docs WHERE CONTAINS(body,'fox NOT dog') > 0;
-- faults of sections, and of words that aren't one word; the first in the text is told
SELECT id, SCORE(1) FROM docs WHERE CONTAINS(body,'red WITHIN r',1) > 0;
SELECT id, SCORE(1) FROM docs WHERE CONTAINS(body,'red WITHIN q AND blue WITHIN Nope',1) > 0;
SELECT id, SCORE(1) FROM docs WHERE CONTAINS(body,'(quick WITHIN t) WITHIN q',1) > 0;
SELECT id, SCORE(1) FROM docs WHERE CONTAINS(body,'quick WITHIN t WITHIN z',1) > 0;
SELECT id, SCORE(1) FROM docs WHERE CONTAINS(body,'(red WITHIN q) WITHIN t',1) > 0;
SELECT id, SCORE(1) FROM docs WHERE CONTAINS(body,'red = web\-site',1) > 0;
SELECT id, SCORE(1) FROM docs WHERE CONTAINS(body,'red = {a-b} WITHIN nope',1) > 0;
SELECT id, SCORE(1) FROM docs WHERE CONTAINS(body,'red WITHIN nope | red = {a-b}',1) > 0;
SELECT id, SCORE(1) FROM docs WHERE CONTAINS(body,'the WITHIN nope',1) > 0;
-- faults of texts come first, with their places
SELECT id, SCORE(1) FROM docs WHERE CONTAINS(body,'',1) > 0;
SELECT id, SCORE(1) FROM docs WHERE CONTAINS(body,'red AND',1) > 0;
SELECT id, SCORE(1) FROM docs WHERE CONTAINS(body,'red WITHIN',1) > 0;
SELECT id, SCORE(1) FROM docs WHERE CONTAINS(body,'(red',1) > 0;
SELECT id, SCORE(1) FROM docs WHERE CONTAINS(body,'red)',1) > 0;
SELECT id, SCORE(1) FROM docs WHERE CONTAINS(body,'red WITHIN q * 2',1) > 0;
SELECT id, SCORE(1) FROM docs WHERE CONTAINS(body,'red, blue',1) > 0;
SELECT id, SCORE(1) FROM docs WHERE CONTAINS(body,'red ? blue = {a-b}',1) > 0;
SELECT id, SCORE(1) FROM docs WHERE CONTAINS(body,'red ACCUM blue',1) > 0;
SELECT id, SCORE(1) FROM docs WHERE CONTAINS(body,'café*11',1) > 0;
SELECT id, SCORE(1) FROM docs WHERE CONTAINS(body,'red > 101',1) > 0;
SELECT id, SCORE(1) FROM docs WHERE CONTAINS(body,'NEAR((red, blue), 101)',1) > 0;
SELECT id, SCORE(1) FROM docs WHERE CONTAINS(body,'NEAR((red))',1) > 0;
SELECT id, SCORE(1) FROM docs WHERE CONTAINS(body,'red;red;red;red;red;red;red;red;red;red;red;red;red;red;red;red;red',1) > 0;
SELECT id, SCORE(1) FROM docs WHERE CONTAINS(body,'red fox) WITHIN nope',1) > 0;
SELECT id, SCORE(1) FROM docs WHERE CONTAINS(body,'é {',1) > 0;
-- wildcards and DEFINESCORE
SELECT id, SCORE(1) FROM docs WHERE CONTAINS(body,'re% AND fox',1) > 0;
SELECT id, SCORE(1) FROM docs WHERE CONTAINS(body,'DEFINESCORE(red, OCCURRENCE) WITHIN nope',1) > 0;
SELECT id, SCORE(1) FROM docs WHERE CONTAINS(body,'NEAR((red, f_x))',1) > 0;
SELECT id, SCORE(1) FROM docs WHERE CONTAINS(body,'re% = {a-b}',1) > 0;
-- at the limits and one past them: 1024 lexemes, 32 open parentheses, 4000 bytes, 16 operands
SELECT id, SCORE(1) FROM docs WHERE CONTAINS(body,'a a a a a a a a a a a a a a a a a a a a a a a a a a a a a a a a a a a a a a a a a a a a a a a a a a a a a a a a a a a a a a a a a a a a a a a a a a a a a a a a a a a a a a a a a a a a a a a a a a a a a a a a a a a a a a a a a a a a a a a a a a a a a a a a a a a a a a a a a a a a a a a a a a a a a a a a a a a a a a a a a a a a a a a a a a a a a a a a a a a a a a a a a a a a a a a a a a a a a a a a a a a a a a a a a a a a a a a a a a a a a a a a a a a a a a a a a a a a a a a a a a a a a a a a a a a a a a a a a a a a a a a a a a a a a a a a a a a a a a a a a a a a a a a a a a a a a a a a a a a a a a a a a a a a a a a a a a a a a a a a a a a a a a a a a a a a a a a a a a a a a a a a a a a a a a a a a a a a a a a a a a a a a a a a a a a a a a a a a a a a a a a a a a a a a a a a a a a a a a a a a a a a a a a a a a a a a a a a a a a a a a a a a a a a a a a a a a a a a a a a a a a a a a a a a a a a a a a a a a a a a a a a a a a a a a a a a a a a a a a a a a a a a a a a a a a a a a a a a a a a a a a a a a a a a a a a a a a a a a a a a a a a a a a a a a a a a a a a a a a a a a a a a a a a a a a a a a a a a a a a a a a a a a a a a a a a a a a a a a a a a a a a a a a a a a a a a a a a a a a a a a a a a a a a a a a a a a a a a a a a a a a a a a a a a a a a a a a a a a a a a a a a a a a a a a a a a a a a a a a a a a a a a a a a a a a a a a a a a a a a a a a a a a a a a a a a a a a a a a a a a a a a a a a a a a a a a a a a a a a a a a a a a a a a a a a a a a a a a a a a a a a a a a a a a a a a a a a a a a a a a a a a a a a a a a a a a a a a a a a a a a a a a a a a a a a a a a a a a a a a a a a a a a a a a a a a a a a a a a a a a a a a a a a a a a a a a a a a a a a a a a a a a a a a a a a a a a a a a a a a a a a a a a a a a a a a a a a a a a a a a a a a a a a a a a a a a a a a a a a a a a a a a a a a a a a a a a a a a a a a a a a a a a a a a a a a a a a a a a a a a a a a a a a a a a a a a a a a a a a a a a a a a a a a a a a a a a a a a a a a a a a a a a a a a a a a a a a a a a a a a a a a a a a a a a a a a a a a a a a a a a a a',1) > 0;
SELECT id, SCORE(1) FROM docs WHERE CONTAINS(body,'a a a a a a a a a a a a a a a a a a a a a a a a a a a a a a a a a a a a a a a a a a a a a a a a a a a a a a a a a a a a a a a a a a a a a a a a a a a a a a a a a a a a a a a a a a a a a a a a a a a a a a a a a a a a a a a a a a a a a a a a a a a a a a a a a a a a a a a a a a a a a a a a a a a a a a a a a a a a a a a a a a a a a a a a a a a a a a a a a a a a a a a a a a a a a a a a a a a a a a a a a a a a a a a a a a a a a a a a a a a a a a a a a a a a a a a a a a a a a a a a a a a a a a a a a a a a a a a a a a a a a a a a a a a a a a a a a a a a a a a a a a a a a a a a a a a a a a a a a a a a a a a a a a a a a a a a a a a a a a a a a a a a a a a a a a a a a a a a a a a a a a a a a a a a a a a a a a a a a a a a a a a a a a a a a a a a a a a a a a a a a a a a a a a a a a a a a a a a a a a a a a a a a a a a a a a a a a a a a a a a a a a a a a a a a a a a a a a a a a a a a a a a a a a a a a a a a a a a a a a a a a a a a a a a a a a a a a a a a a a a a a a a a a a a a a a a a a a a a a a a a a a a a a a a a a a a a a a a a a a a a a a a a a a a a a a a a a a a a a a a a a a a a a a a a a a a a a a a a a a a a a a a a a a a a a a a a a a a a a a a a a a a a a a a a a a a a a a a a a a a a a a a a a a a a a a a a a a a a a a a a a a a a a a a a a a a a a a a a a a a a a a a a a a a a a a a a a a a a a a a a a a a a a a a a a a a a a a a a a a a a a a a a a a a a a a a a a a a a a a a a a a a a a a a a a a a a a a a a a a a a a a a a a a a a a a a a a a a a a a a a a a a a a a a a a a a a a a a a a a a a a a a a a a a a a a a a a a a a a a a a a a a a a a a a a a a a a a a a a a a a a a a a a a a a a a a a a a a a a a a a a a a a a a a a a a a a a a a a a a a a a a a a a a a a a a a a a a a a a a a a a a a a a a a a a a a a a a a a a a a a a a a a a a a a a a a a a a a a a a a a a a a a a a a a a a a a a a a a a a a a a a a a a a a a a a a a a a a a a a a a a a a a a a a a a a a a a a a a a a a a a a a a a a a a a a a a a a a a a a a a a a a a a a a a a a a a a a a a a a a a a a a a a a a a a a a a a a a a a a a a a a a a',1) > 0;
SELECT id, SCORE(1) FROM docs WHERE CONTAINS(body,'a|a|a|a|a|a|a|a|a|a|a|a|a|a|a|a|a|a|a|a|a|a|a|a|a|a|a|a|a|a|a|a|a|a|a|a|a|a|a|a|a|a|a|a|a|a|a|a|a|a|a|a|a|a|a|a|a|a|a|a|a|a|a|a|a|a|a|a|a|a|a|a|a|a|a|a|a|a|a|a|a|a|a|a|a|a|a|a|a|a|a|a|a|a|a|a|a|a|a|a|a|a|a|a|a|a|a|a|a|a|a|a|a|a|a|a|a|a|a|a|a|a|a|a|a|a|a|a|a|a|a|a|a|a|a|a|a|a|a|a|a|a|a|a|a|a|a|a|a|a|a|a|a|a|a|a|a|a|a|a|a|a|a|a|a|a|a|a|a|a|a|a|a|a|a|a|a|a|a|a|a|a|a|a|a|a|a|a|a|a|a|a|a|a|a|a|a|a|a|a|a|a|a|a|a|a|a|a|a|a|a|a|a|a|a|a|a|a|a|a|a|a|a|a|a|a|a|a|a|a|a|a|a|a|a|a|a|a|a|a|a|a|a|a|a|a|a|a|a|a|a|a|a|a|a|a|a|a|a|a|a|a|a|a|a|a|a|a|a|a|a|a|a|a|a|a|a|a|a|a|a|a|a|a|a|a|a|a|a|a|a|a|a|a|a|a|a|a|a|a|a|a|a|a|a|a|a|a|a|a|a|a|a|a|a|a|a|a|a|a|a|a|a|a|a|a|a|a|a|a|a|a|a|a|a|a|a|a|a|a|a|a|a|a|a|a|a|a|a|a|a|a|a|a|a|a|a|a|a|a|a|a|a|a|a|a|a|a|a|a|a|a|a|a|a|a|a|a|a|a|a|a|a|a|a|a|a|a|a|a|a|a|a|a|a|a|a|a|a|a|a|a|a|a|a|a|a|a|a|a|a|a|a|a|a|a|a|a|a|a|a|a|a|a|a|a|a|a|a|a|a|a|a|a|a|a|a|a|a|a|a|a|a|a|a|a|a|a|a|a|a|a|a|a|a|a|a|a|a|a|a|a|a|a|a|a|a|a|a|a|a|a|a|a|a|a|a|a|a|a|a|a|a|a|a|a|a|a|a|a|a|a|a|a|a|a|a|a|a|a|a|a|a|a|a|a|a|a|a|a|a|a',1) > 0;
SELECT id, SCORE(1) FROM docs WHERE CONTAINS(body,'a|a|a|a|a|a|a|a|a|a|a|a|a|a|a|a|a|a|a|a|a|a|a|a|a|a|a|a|a|a|a|a|a|a|a|a|a|a|a|a|a|a|a|a|a|a|a|a|a|a|a|a|a|a|a|a|a|a|a|a|a|a|a|a|a|a|a|a|a|a|a|a|a|a|a|a|a|a|a|a|a|a|a|a|a|a|a|a|a|a|a|a|a|a|a|a|a|a|a|a|a|a|a|a|a|a|a|a|a|a|a|a|a|a|a|a|a|a|a|a|a|a|a|a|a|a|a|a|a|a|a|a|a|a|a|a|a|a|a|a|a|a|a|a|a|a|a|a|a|a|a|a|a|a|a|a|a|a|a|a|a|a|a|a|a|a|a|a|a|a|a|a|a|a|a|a|a|a|a|a|a|a|a|a|a|a|a|a|a|a|a|a|a|a|a|a|a|a|a|a|a|a|a|a|a|a|a|a|a|a|a|a|a|a|a|a|a|a|a|a|a|a|a|a|a|a|a|a|a|a|a|a|a|a|a|a|a|a|a|a|a|a|a|a|a|a|a|a|a|a|a|a|a|a|a|a|a|a|a|a|a|a|a|a|a|a|a|a|a|a|a|a|a|a|a|a|a|a|a|a|a|a|a|a|a|a|a|a|a|a|a|a|a|a|a|a|a|a|a|a|a|a|a|a|a|a|a|a|a|a|a|a|a|a|a|a|a|a|a|a|a|a|a|a|a|a|a|a|a|a|a|a|a|a|a|a|a|a|a|a|a|a|a|a|a|a|a|a|a|a|a|a|a|a|a|a|a|a|a|a|a|a|a|a|a|a|a|a|a|a|a|a|a|a|a|a|a|a|a|a|a|a|a|a|a|a|a|a|a|a|a|a|a|a|a|a|a|a|a|a|a|a|a|a|a|a|a|a|a|a|a|a|a|a|a|a|a|a|a|a|a|a|a|a|a|a|a|a|a|a|a|a|a|a|a|a|a|a|a|a|a|a|a|a|a|a|a|a|a|a|a|a|a|a|a|a|a|a|a|a|a|a|a|a|a|a|a|a|a|a|a|a|a|a|a|a|a|a|a|a|a|a|a|a|a|a|a|a|a|a|a|a|a|a|a|a|a|a|a|a|a|a|a|a|a|a|a|a|a|a|a|a*1',1) > 0;
SELECT id, SCORE(1) FROM docs WHERE CONTAINS(body,'red fox*1*1*1*1*1*1*1*1*1*1*1*1*1*1*1*1*1*1*1*1*1*1*1*1*1*1*1*1*1*1*1*1*1*1*1*1*1*1*1*1*1*1*1*1*1*1*1*1*1*1*1*1*1*1*1*1*1*1*1*1*1*1*1*1*1*1*1*1*1*1*1*1*1*1*1*1*1*1*1*1*1*1*1*1*1*1*1*1*1*1*1*1*1*1*1*1*1*1*1*1*1*1*1*1*1*1*1*1*1*1*1*1*1*1*1*1*1*1*1*1*1*1*1*1*1*1*1*1*1*1*1*1*1*1*1*1*1*1*1*1*1*1*1*1*1*1*1*1*1*1*1*1*1*1*1*1*1*1*1*1*1*1*1*1*1*1*1*1*1*1*1*1*1*1*1*1*1*1*1*1*1*1*1*1*1*1*1*1*1*1*1*1*1*1*1*1*1*1*1*1*1*1*1*1*1*1*1*1*1*1*1*1*1*1*1*1*1*1*1*1*1*1*1*1*1*1*1*1*1*1*1*1*1*1*1*1*1*1*1*1*1*1*1*1*1*1*1*1*1*1*1*1*1*1*1*1*1*1*1*1*1*1*1*1*1*1*1*1*1*1*1*1*1*1*1*1*1*1*1*1*1*1*1*1*1*1*1*1*1*1*1*1*1*1*1*1*1*1*1*1*1*1*1*1*1*1*1*1*1*1*1*1*1*1*1*1*1*1*1*1*1*1*1*1*1*1*1*1*1*1*1*1*1*1*1*1*1*1*1*1*1*1*1*1*1*1*1*1*1*1*1*1*1*1*1*1*1*1*1*1*1*1*1*1*1*1*1*1*1*1*1*1*1*1*1*1*1*1*1*1*1*1*1*1*1*1*1*1*1*1*1*1*1*1*1*1*1*1*1*1*1*1*1*1*1*1*1*1*1*1*1*1*1*1*1*1*1*1*1*1*1*1*1*1*1*1*1*1*1*1*1*1*1*1*1*1*1*1*1*1*1*1*1*1*1*1*1*1*1*1*1*1*1*1*1*1*1*1*1*1*1*1*1*1*1*1*1*1*1*1*1*1*1*1*1*1*1*1*1*1*1*1*1*1*1*1*1*1*1*1*1*1*1*1*1*1*1*1*1*1*1*1*1*1*1*1*1*1*1*1*1',1) > 0;
SELECT id, SCORE(1) FROM docs WHERE CONTAINS(body,'quick red fox*1*1*1*1*1*1*1*1*1*1*1*1*1*1*1*1*1*1*1*1*1*1*1*1*1*1*1*1*1*1*1*1*1*1*1*1*1*1*1*1*1*1*1*1*1*1*1*1*1*1*1*1*1*1*1*1*1*1*1*1*1*1*1*1*1*1*1*1*1*1*1*1*1*1*1*1*1*1*1*1*1*1*1*1*1*1*1*1*1*1*1*1*1*1*1*1*1*1*1*1*1*1*1*1*1*1*1*1*1*1*1*1*1*1*1*1*1*1*1*1*1*1*1*1*1*1*1*1*1*1*1*1*1*1*1*1*1*1*1*1*1*1*1*1*1*1*1*1*1*1*1*1*1*1*1*1*1*1*1*1*1*1*1*1*1*1*1*1*1*1*1*1*1*1*1*1*1*1*1*1*1*1*1*1*1*1*1*1*1*1*1*1*1*1*1*1*1*1*1*1*1*1*1*1*1*1*1*1*1*1*1*1*1*1*1*1*1*1*1*1*1*1*1*1*1*1*1*1*1*1*1*1*1*1*1*1*1*1*1*1*1*1*1*1*1*1*1*1*1*1*1*1*1*1*1*1*1*1*1*1*1*1*1*1*1*1*1*1*1*1*1*1*1*1*1*1*1*1*1*1*1*1*1*1*1*1*1*1*1*1*1*1*1*1*1*1*1*1*1*1*1*1*1*1*1*1*1*1*1*1*1*1*1*1*1*1*1*1*1*1*1*1*1*1*1*1*1*1*1*1*1*1*1*1*1*1*1*1*1*1*1*1*1*1*1*1*1*1*1*1*1*1*1*1*1*1*1*1*1*1*1*1*1*1*1*1*1*1*1*1*1*1*1*1*1*1*1*1*1*1*1*1*1*1*1*1*1*1*1*1*1*1*1*1*1*1*1*1*1*1*1*1*1*1*1*1*1*1*1*1*1*1*1*1*1*1*1*1*1*1*1*1*1*1*1*1*1*1*1*1*1*1*1*1*1*1*1*1*1*1*1*1*1*1*1*1*1*1*1*1*1*1*1*1*1*1*1*1*1*1*1*1*1*1*1*1*1*1*1*1*1*1*1*1*1*1*1*1*1*1*1*1*1*1*1*1*1*1*1*1*1*1*1*1*1*1*1*1*1*1*1*1*1*1*1*1*1*1*1*1*1',1) > 0;
SELECT id, SCORE(1) FROM docs WHERE CONTAINS(body,'fox-none-none-none-none-none-none-none-none-none-none-none-none-none-none-none-none-none-none-none-none-none-none-none-none-none-none-none-none-none-none-none-none-none-none-none-none-none-none-none-none-none-none-none-none-none-none-none-none-none-none-none-none-none-none-none-none-none-none-none-none-none-none-none-none-none-none-none-none-none-none-none-none-none-none-none-none-none-none-none-none-none-none-none-none-none-none-none-none-none-none-none-none-none-none-none-none-none-none-none-none-none-none-none-none-none-none-none-none-none-none-none-none-none-none-none-none-none-none-none-none-none-none-none-none-none-none-none-none-none-none-none-none-none-none-none-none-none-none-none-none-none-none-none-none-none-none-none-none-none-none-none-none-none-none-none-none-none-none-none-none-none-none-none-none-none-none-none-none-none-none-none-none-none-none-none-none-none-none-none-none-none-none-none-none-none-none-none-none-none-none-none-none-none-none-none-none-none-none-none-none-none-none-none-none-none-none-none-none-none-none-none-none-none-none-none-none-none-none-none-none-none-none-none-none-none-none-none-none-none-none-none-none-none-none-none-none-none-none-none-none-none-none-none-none-none-none-none-none-none-none-none-none-none-none-none-none-none-none-none-none-none-none-none-none-none-none-none-none-none-none-none-none-none-none-none-none-none-none-none-none-none-none-none-none-none-none-none-none-none-none-none-none-none-none-none-none-none-none-none-none-none-none-none-none-none-none-none-none-none-none-none-none-none-none-none-none-none-none-none-none-none-none-none-none-none-none-none-none-none-none-none-none-none-none-none-none-none-none-none-none-none-none-none-none-none-none-none-none-none-none-none-none-none-none-none-none-none-none-none-none-none-none-none-none-none-none-none-none-none-none-none-none-none-none-none-none-none-none-none-none-none-none-none-none-none-none-none-none-none-none-none-none-none-none-none-none-none-none-none-none-none-none-none-none-none-none-none-none-none-none-none-none-none-none-none-none-none-none-none-none-none-none-none-none-none-none-none-none-none-none-none-none-none-none-none-none-none-none-none-none-none-none-none-none-none-none-none-none-none-none-none-none-none-none-none-none-none-none-none-none-none-none-none-none-none-none-none-none-none-none-none-none-none-none-none-none-none-none-none-none-none-none-none-none-none-none-none-none-none-none-none-none-none-none-none-none-none-none-none-none',1) > 0;
SELECT id, SCORE(1) FROM docs WHERE CONTAINS(body,'((((((((((((((((((((((((((((((((fox))))))))))))))))))))))))))))))))',1) > 0;
SELECT id, SCORE(1) FROM docs WHERE CONTAINS(body,'(((((((((((((((((((((((((((((((((fox)))))))))))))))))))))))))))))))))',1) > 0;
SELECT id, SCORE(1) FROM docs WHERE CONTAINS(body,'fox OR xxxxxxxxxxxxxxxxxxxxxxxxxxxxxxxxxxxxxxxxxxxxxxxxxxxxxxxxxxxxxxxxxxxxxxxxxxxxxxxxxxxxxxxxxxxxxxxxxxxxxxxxxxxxxxxxxxxxxxxxxxxxxxxxxxxxxxxxxxxxxxxxxxxxxxxxxxxxxxxxxxxxxxxxxxxxxxxxxxxxxxxxxxxxxxxxxxxxxxxxxxxxxxxxxxxxxxxxxxxxxxxxxxxxxxxxxxxxxxxxxxxxxxxxxxxxxxxxxxxxxxxxxxxxxxxxxxxxxxxxxxxxxxxxxxxxxxxxxxxxxxxxxxxxxxxxxxxxxxxxxxxxxxxxxxxxxxxxxxxxxxxxxxxxxxxxxxxxxxxxxxxxxxxxxxxxxxxxxxxxxxxxxxxxxxxxxxxxxxxxxxxxxxxxxxxxxxxxxxxxxxxxxxxxxxxxxxxxxxxxxxxxxxxxxxxxxxxxxxxxxxxxxxxxxxxxxxxxxxxxxxxxxxxxxxxxxxxxxxxxxxxxxxxxxxxxxxxxxxxxxxxxxxxxxxxxxxxxxxxxxxxxxxxxxxxxxxxxxxxxxxxxxxxxxxxxxxxxxxxxxxxxxxxxxxxxxxxxxxxxxxxxxxxxxxxxxxxxxxxxxxxxxxxxxxxxxxxxxxxxxxxxxxxxxxxxxxxxxxxxxxxxxxxxxxxxxxxxxxxxxxxxxxxxxxxxxxxxxxxxxxxxxxxxxxxxxxxxxxxxxxxxxxxxxxxxxxxxxxxxxxxxxxxxxxxxxxxxxxxxxxxxxxxxxxxxxxxxxxxxxxxxxxxxxxxxxxxxxxxxxxxxxxxxxxxxxxxxxxxxxxxxxxxxxxxxxxxxxxxxxxxxxxxxxxxxxxxxxxxxxxxxxxxxxxxxxxxxxxxxxxxxxxxxxxxxxxxxxxxxxxxxxxxxxxxxxxxxxxxxxxxxxxxxxxxxxxxxxxxxxxxxxxxxxxxxxxxxxxxxxxxxxxxxxxxxxxxxxxxxxxxxxxxxxxxxxxxxxxxxxxxxxxxxxxxxxxxxxxxxxxxxxxxxxxxxxxxxxxxxxxxxxxxxxxxxxxxxxxxxxxxxxxxxxxxxxxxxxxxxxxxxxxxxxxxxxxxxxxxxxxxxxxxxxxxxxxxxxxxxxxxxxxxxxxxxxxxxxxxxxxxxxxxxxxxxxxxxxxxxxxxxxxxxxxxxxxxxxxxxxxxxxxxxxxxxxxxxxxxxxxxxxxxxxxxxxxxxxxxxxxxxxxxxxxxxxxxxxxxxxxxxxxxxxxxxxxxxxxxxxxxxxxxxxxxxxxxxxxxxxxxxxxxxxxxxxxxxxxxxxxxxxxxxxxxxxxxxxxxxxxxxxxxxxxxxxxxxxxxxxxxxxxxxxxxxxxxxxxxxxxxxxxxxxxxxxxxxxxxxxxxxxxxxxxxxxxxxxxxxxxxxxxxxxxxxxxxxxxxxxxxxxxxxxxxxxxxxxxxxxxxxxxxxxxxxxxxxxxxxxxxxxxxxxxxxxxxxxxxxxxxxxxxxxxxxxxxxxxxxxxxxxxxxxxxxxxxxxxxxxxxxxxxxxxxxxxxxxxxxxxxxxxxxxxxxxxxxxxxxxxxxxxxxxxxxxxxxxxxxxxxxxxxxxxxxxxxxxxxxxxxxxxxxxxxxxxxxxxxxxxxxxxxxxxxxxxxxxxxxxxxxxxxxxxxxxxxxxxxxxxxxxxxxxxxxxxxxxxxxxxxxxxxxxxxxxxxxxxxxxxxxxxxxxxxxxxxxxxxxxxxxxxxxxxxxxxxxxxxxxxxxxxxxxxxxxxxxxxxxxxxxxxxxxxxxxxxxxxxxxxxxxxxxxxxxxxxxxxxxxxxxxxxxxxxxxxxxxxxxxxxxxxxxxxxxxxxxxxxxxxxxxxxxxxxxxxxxxxxxxxxxxxxxxxxxxxxxxxxxxxxxxxxxxxxxxxxxxxxxxxxxxxxxxxxxxxxxxxxxxxxxxxxxxxxxxxxxxxxxxxxxxxxxxxxxxxxxxxxxxxxxxxxxxxxxxxxxxxxxxxxxxxxxxxxxxxxxxxxxxxxxxxxxxxxxxxxxxxxxxxxxxxxxxxxxxxxxxxxxxxxxxxxxxxxxxxxxxxxxxxxxxxxxxxxxxxxxxxxxxxxxxxxxxxxxxxxxxxxxxxxxxxxxxxxxxxxxxxxxxxxxxxxxxxxxxxxxxxxxxxxxxxxxxxxxxxxxxxxxxxxxxxxxxxxxxxxxxxxxxxxxxxxxxxxxxxxxxxxxxxxxxxxxxxxxxxxxxxxxxxxxxxxxxxxxxxxxxxxxxxxxxxxxxxxxxxxxxxxxxxxxxxxxxxxxxxxxxxxxxxxxxxxxxxxxxxxxxxxxxxxxxxxxxxxxxxxxxxxxxxxxxxxxxxxxxxxxxxxxxxxxxxxxxxxxxxxxxxxxxxxxxxxxxxxxxxxxxxxxxxxxxxxxxxxxxxxxxxxxxxxxxxxxxxxxxxxxxxxxxxxxxxxxxxxxxxxxxxxxxxxxxxxxxxxxxxxxxxxxxxxxxxxxxxxxxxxxxxxxxxxxxxxxxxxxxxxxxxxxxxxxxxxxxxxxxxxxxxxxxxxxxxxxxxxxxxxxxxxxxxxxxxxxxxxxxxxxxxxxxxxxxxxxxxxxxxxxxxxxxxxxxxxxxxxxxxxxxxxxxxxxxxxxxxxxxxxxxxxxxxxxxxxxxxxxxxxxxxxxxxxxxxxxxxxxxxxxxxxxxxxxxxxxxxxxxxxxxxxxxxxxxxxxxxxxxxxxxxxxxxxxxxxxxxxxxxxxxxxxxxxxxxxxxxxxxxxxxxxxxxxxxxxxxxxxxxxxxxxxxxxxxxxxxxxxxxxxxxxxxxxxxxxxxxxxxxxxxxxxxxxxxxxxxxxxxxxxxxxxxxxxxxxxxxxxxxxxxxxxxxxxxxxxxxxxxxxxxxxxxxxxxxxxxxxxxxxxxxxxxxxxxxxxxxxxxxxxxxxxxxxxxxxxxxxxxxxxxxxxxxxxxxxxxxxxxxxxxxxxxxxxxxxxxxxxxxxxxxxxxxxxxxxxxxxxxxxxxxxxxxxxxxxxxxxxxxxxxxxxxxxxxxxxxxxxxxxxxxxxxxxxxxxxxxxxxxxxxxxxxxxxxxxxxxxxxxxxxxxxxxxxxxxxxxxxxxxxxxxxxxxxxxxxxxxxxxxxxxxxxxxxxxxxxxxxxxxxxxxxxxxxxxxxxxxxxxxxxxxxxxxxxxxxxxxxxxxxxxxxxxxxxxxxxxxxxxxxxxxxxxxxxxxxxxxxxxxxxxxxxxxxxxxxxxxxxxxxxxxxxxxxxxxxxxxxxxxxxxxxxxxxxxxxxxxxxxxxxxxxxxxxxxxxxxxxxxxxxxxxxxxxxxxxxxxxxxxxxxxxxxxxxxxxxxxxxxxxxxxxxxxxxxxxxxxxxxxxxxxxxxxxxxxxxxxxxxxxxxxxxxxxxxxxxxxxxxxxxxxxxxxxxxxxxxxxxxxxxxxxxxxxxxxxxxxxxxxxxxxxxxxxxxxxxxxxxxxxxxxxxxxxxxxxxxxxxxxxxxxxxxxxxxxxxxxxxxxxxxxxxxxxxxxxxxxxxxxxxxxxxxxxxxxxxxxxxxxxxxxxxxxxxxxxxxxxxxxxxxxxxxxxxxxxxxxxxxxxxxxxxxxxxxxxxxxxxxxxxxxxxxxxxxxxxxxxxxxxxxxxxxxxxxxxxxxxxxxxxxxxxxxxxxxxxxxxxxxxxxxxxxxxxxxxxxxxxxxxxxxxxxxxxxxxxxxxxxxxxxxxxxxxxxxxxxxxxxxxxxxxxxxxxxxxxxxxxxxxxxxxxxxxxxxxxxxxxxxxxxxxxxxxxxxxxxxxxxxxxxxxxxxxxxxxxxxxxxxxxxxxxxxxxxxxxxxxxxxxxxxxxxxxxxxxxxxxxxxxxxxxxxxxxxxxxxxxxxxxxxxxxxxxxxxxxxxxxxxxxxxxxxxxxxxxxxxxxxxxxxxxxxxxxxxxxxxxxxxxxxxxxxxxxxxxxxxxxxxxxxxxxxxxxxxxxxxxxxxxxxxxxxxxxxxxxxxxxxxxxxxxxxxxxxxxxxxxxxxxxxxxxxxxxxxxxxxxx',1) > 0;
SELECT id, SCORE(1) FROM docs WHERE CONTAINS(body,'fox OR xxxxxxxxxxxxxxxxxxxxxxxxxxxxxxxxxxxxxxxxxxxxxxxxxxxxxxxxxxxxxxxxxxxxxxxxxxxxxxxxxxxxxxxxxxxxxxxxxxxxxxxxxxxxxxxxxxxxxxxxxxxxxxxxxxxxxxxxxxxxxxxxxxxxxxxxxxxxxxxxxxxxxxxxxxxxxxxxxxxxxxxxxxxxxxxxxxxxxxxxxxxxxxxxxxxxxxxxxxxxxxxxxxxxxxxxxxxxxxxxxxxxxxxxxxxxxxxxxxxxxxxxxxxxxxxxxxxxxxxxxxxxxxxxxxxxxxxxxxxxxxxxxxxxxxxxxxxxxxxxxxxxxxxxxxxxxxxxxxxxxxxxxxxxxxxxxxxxxxxxxxxxxxxxxxxxxxxxxxxxxxxxxxxxxxxxxxxxxxxxxxxxxxxxxxxxxxxxxxxxxxxxxxxxxxxxxxxxxxxxxxxxxxxxxxxxxxxxxxxxxxxxxxxxxxxxxxxxxxxxxxxxxxxxxxxxxxxxxxxxxxxxxxxxxxxxxxxxxxxxxxxxxxxxxxxxxxxxxxxxxxxxxxxxxxxxxxxxxxxxxxxxxxxxxxxxxxxxxxxxxxxxxxxxxxxxxxxxxxxxxxxxxxxxxxxxxxxxxxxxxxxxxxxxxxxxxxxxxxxxxxxxxxxxxxxxxxxxxxxxxxxxxxxxxxxxxxxxxxxxxxxxxxxxxxxxxxxxxxxxxxxxxxxxxxxxxxxxxxxxxxxxxxxxxxxxxxxxxxxxxxxxxxxxxxxxxxxxxxxxxxxxxxxxxxxxxxxxxxxxxxxxxxxxxxxxxxxxxxxxxxxxxxxxxxxxxxxxxxxxxxxxxxxxxxxxxxxxxxxxxxxxxxxxxxxxxxxxxxxxxxxxxxxxxxxxxxxxxxxxxxxxxxxxxxxxxxxxxxxxxxxxxxxxxxxxxxxxxxxxxxxxxxxxxxxxxxxxxxxxxxxxxxxxxxxxxxxxxxxxxxxxxxxxxxxxxxxxxxxxxxxxxxxxxxxxxxxxxxxxxxxxxxxxxxxxxxxxxxxxxxxxxxxxxxxxxxxxxxxxxxxxxxxxxxxxxxxxxxxxxxxxxxxxxxxxxxxxxxxxxxxxxxxxxxxxxxxxxxxxxxxxxxxxxxxxxxxxxxxxxxxxxxxxxxxxxxxxxxxxxxxxxxxxxxxxxxxxxxxxxxxxxxxxxxxxxxxxxxxxxxxxxxxxxxxxxxxxxxxxxxxxxxxxxxxxxxxxxxxxxxxxxxxxxxxxxxxxxxxxxxxxxxxxxxxxxxxxxxxxxxxxxxxxxxxxxxxxxxxxxxxxxxxxxxxxxxxxxxxxxxxxxxxxxxxxxxxxxxxxxxxxxxxxxxxxxxxxxxxxxxxxxxxxxxxxxxxxxxxxxxxxxxxxxxxxxxxxxxxxxxxxxxxxxxxxxxxxxxxxxxxxxxxxxxxxxxxxxxxxxxxxxxxxxxxxxxxxxxxxxxxxxxxxxxxxxxxxxxxxxxxxxxxxxxxxxxxxxxxxxxxxxxxxxxxxxxxxxxxxxxxxxxxxxxxxxxxxxxxxxxxxxxxxxxxxxxxxxxxxxxxxxxxxxxxxxxxxxxxxxxxxxxxxxxxxxxxxxxxxxxxxxxxxxxxxxxxxxxxxxxxxxxxxxxxxxxxxxxxxxxxxxxxxxxxxxxxxxxxxxxxxxxxxxxxxxxxxxxxxxxxxxxxxxxxxxxxxxxxxxxxxxxxxxxxxxxxxxxxxxxxxxxxxxxxxxxxxxxxxxxxxxxxxxxxxxxxxxxxxxxxxxxxxxxxxxxxxxxxxxxxxxxxxxxxxxxxxxxxxxxxxxxxxxxxxxxxxxxxxxxxxxxxxxxxxxxxxxxxxxxxxxxxxxxxxxxxxxxxxxxxxxxxxxxxxxxxxxxxxxxxxxxxxxxxxxxxxxxxxxxxxxxxxxxxxxxxxxxxxxxxxxxxxxxxxxxxxxxxxxxxxxxxxxxxxxxxxxxxxxxxxxxxxxxxxxxxxxxxxxxxxxxxxxxxxxxxxxxxxxxxxxxxxxxxxxxxxxxxxxxxxxxxxxxxxxxxxxxxxxxxxxxxxxxxxxxxxxxxxxxxxxxxxxxxxxxxxxxxxxxxxxxxxxxxxxxxxxxxxxxxxxxxxxxxxxxxxxxxxxxxxxxxxxxxxxxxxxxxxxxxxxxxxxxxxxxxxxxxxxxxxxxxxxxxxxxxxxxxxxxxxxxxxxxxxxxxxxxxxxxxxxxxxxxxxxxxxxxxxxxxxxxxxxxxxxxxxxxxxxxxxxxxxxxxxxxxxxxxxxxxxxxxxxxxxxxxxxxxxxxxxxxxxxxxxxxxxxxxxxxxxxxxxxxxxxxxxxxxxxxxxxxxxxxxxxxxxxxxxxxxxxxxxxxxxxxxxxxxxxxxxxxxxxxxxxxxxxxxxxxxxxxxxxxxxxxxxxxxxxxxxxxxxxxxxxxxxxxxxxxxxxxxxxxxxxxxxxxxxxxxxxxxxxxxxxxxxxxxxxxxxxxxxxxxxxxxxxxxxxxxxxxxxxxxxxxxxxxxxxxxxxxxxxxxxxxxxxxxxxxxxxxxxxxxxxxxxxxxxxxxxxxxxxxxxxxxxxxxxxxxxxxxxxxxxxxxxxxxxxxxxxxxxxxxxxxxxxxxxxxxxxxxxxxxxxxxxxxxxxxxxxxxxxxxxxxxxxxxxxxxxxxxxxxxxxxxxxxxxxxxxxxxxxxxxxxxxxxxxxxxxxxxxxxxxxxxxxxxxxxxxxxxxxxxxxxxxxxxxxxxxxxxxxxxxxxxxxxxxxxxxxxxxxxxxxxxxxxxxxxxxxxxxxxxxxxxxxxxxxxxxxxxxxxxxxxxxxxxxxxxxxxxxxxxxxxxxxxxxxxxxxxxxxxxxxxxxxxxxxxxxxxxxxxxxxxxxxxxxxxxxxxxxxxxxxxxxxxxxxxxxxxxxxxxxxxxxxxxxxxxxxxxxxxxxxxxxxxxxxxxxxxxxxxxxxxxxxxxxxxxxxxxxxxxxxxxxxxxxxxxxxxxxxxxxxxxxxxxxxxxxxxxxxxxxxxxxxxxxxxxxxxxxxxxxxxxxxxxxxxxxxxxxxxxxxxxxxxxxxxxxxxxxxxxxxxxxxxxxxxxxxxxxxxxxxxxxxxxxxxxxxxxxxxxxxxxxxxxxxxxxxxxxxxxxxxxxxxxxxxxxxxxxxxxxxxxxxxxxxxxxxxxxxxxxxxxxxxxxxxxxxxxxxxxxxxxxxxxxxxxxxxxxxxxxxxxxxxxxxxxxxxxxxxxxxxxxxxxxxxxxxxxxxxxxxxxxxxxxxxxxxxxxxxxxxxxxxxxxxxxxxxxxxxxxxxxxxxxxxxxxxxxxxxxxxxxxxxxxxxxxxxxxxxxxxxxxxxxxxxxxxxxxxxxxxxxxxxxxxxxxxxxxxxxxxxxxxxxxxxxxxxxxxxxxxxxxxxxxxxxxxxxxxxxxxxxxxxxxxxxxxxxxxxxxxxxxxxxxxxxxxxxxxxxxxxxxxxxxxxxxxxxxxxxxxxxxxxxxxxxxxxxxxxxxxxxxxxxxxxxxxxxxxxxxxxxxxxxxxxxxxxxxxxxxxxxxxxxxxxxxxxxxxxxxxxxxxxxxxxxxxxxxxxxxxxxxxxxxxxxxxxxxxxxxxxxxxxxxxxxxxxxxxxxxxxxxxxxxxxxxxxxxxxxxxxxxxxxxxxxxxxxxxxxxxxxxxxxxxxxxxxxxxxxxxxxxxxxxxxxxxxxxxxxxxxxxxxxxxxxxxxxxxxxxxxxxxxxxxxxxxxxxxxxxxxxxxxxxxxxxxxxxxxxxxxxxxxxxxxxxxxxxxxxxxxxxxxxxxxxxxxxxxxxxxxxxxxxxxxxxxxxxxxxxxxxxxxxxxxxxxxxxxxxxxxxxxxxxxxxxxxxxxxxxxxxxxxxxxxxxxxxxxxxxxxxxxxxxxxxxxxxxxxxxxxxxxxxxxxxxxxxxxxxxxxxxxxxxxxxxxxxxxxxxxxxxxxxxxxxxxxxxxxxxxxxxxxxxxxxxxxxxxxxxxxxxxxxxxxxxxxxxxxxxxxxxxxxxxxxxxxxxxxxxxxxxxxxxxxxxxxxxxxxxxx',1) > 0;
SELECT id, SCORE(1) FROM docs WHERE CONTAINS(body,'fox;fox;fox;fox;fox;fox;fox;fox;fox;fox;fox;fox;fox;fox;fox;fox',1) > 0;
SELECT id, SCORE(1) FROM docs WHERE CONTAINS(body,'NEAR((fox, fox, fox, fox, fox, fox, fox, fox, fox, fox, fox, fox, fox, fox, fox, fox), 0)',1) > 0;
SELECT id, SCORE(1) FROM docs WHERE CONTAINS(body,'NEAR((fox, fox, fox, fox, fox, fox, fox, fox, fox, fox, fox, fox, fox, fox, fox, fox, fox), 0)',1) > 0;
