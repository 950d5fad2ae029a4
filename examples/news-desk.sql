-- A news desk: editors leave rules, each a query of its own, and are told which of them every report meets that comes in. A rule index
-- (CTXRULE) has the rules, and MATCHES is given the text of a report, which is stored nowhere.

-- How reports and rules are read: accents don't count, some little words are passed over, and a report has a headline and a place in tags.
EXEC CTX_DDL.CREATE_PREFERENCE('wire_lexer', 'BASIC_LEXER');
EXEC CTX_DDL.SET_ATTRIBUTE('wire_lexer', 'base_letter', 'YES');
EXEC CTX_DDL.CREATE_STOPLIST('wire_words');
EXEC CTX_DDL.ADD_STOPWORD('wire_words', 'the');
EXEC CTX_DDL.ADD_STOPWORD('wire_words', 'of');
EXEC CTX_DDL.ADD_STOPWORD('wire_words', 'a');
EXEC CTX_DDL.CREATE_SECTION_GROUP('wire_tags', 'BASIC_SECTION_GROUP');
EXEC CTX_DDL.ADD_ZONE_SECTION('wire_tags', 'headline', 'H');
EXEC CTX_DDL.ADD_FIELD_SECTION('wire_tags', 'place', 'PLACE');
EXEC CTX_DDL.ADD_SPECIAL_SECTION('wire_tags', 'SENTENCE');

-- Which terms belong together.
EXEC CTX_THES.CREATE_THESAURUS('desk');
EXEC CTX_THES.CREATE_RELATION('desk', 'ferry', 'BT', 'ship');
EXEC CTX_THES.CREATE_RELATION('desk', 'tanker', 'BT', 'ship');
EXEC CTX_THES.CREATE_RELATION('desk', 'strike', 'SYN', 'walkout');

-- The editors and their rules. An urgent one rings.
CREATE TABLE watches (id NUMBER PRIMARY KEY, editor VARCHAR2(20), rule VARCHAR2(400), urgent NUMBER);
INSERT INTO watches VALUES (10, 'Ana', 'NT(ship, desk) AND (fire OR collision OR aground)', 1);
INSERT INTO watches VALUES (11, 'Ana', 'harbour WITHIN headline', 0);
INSERT INTO watches VALUES (12, 'Ana', 'storm% OR gale', 0);
INSERT INTO watches VALUES (20, 'Björn', 'SYN(strike, desk) AND (railway = train = trains)', 1);
INSERT INTO watches VALUES (21, 'Björn', 'NEAR((minister, resign = resigns = resigned), 6, TRUE)', 1);
INSERT INTO watches VALUES (22, 'Björn', 'leader of the opposition', 0);
INSERT INTO watches VALUES (30, 'Chidi', 'goal > 2', 0);
INSERT INTO watches VALUES (31, 'Chidi', '((cup AND final) WITHIN SENTENCE) NOT rugby', 0);
INSERT INTO watches VALUES (32, 'Chidi', 'cafe, bar', 0);
INSERT INTO watches VALUES (40, 'Dora', 'lisbon WITHIN place', 0);
INSERT INTO watches VALUES (41, 'Dora', 'recipe (soup OR stew', 0);
INSERT INTO watches VALUES (42, 'Dora', 'SYN(soup, kitchen)', 0);
CREATE INDEX watch_index ON watches(rule) INDEXTYPE IS CTXSYS.CTXRULE
  PARAMETERS ('LEXER wire_lexer STOPLIST wire_words SECTION GROUP wire_tags');

-- Which rules can't be taken in? 32 has a comma where an OR was meant, 41 lacks a parenthesis and an AND, and 42 asks a thesaurus that isn't there.
SELECT * FROM CTX_USER_INDEX_ERRORS;

-- 7:10. Reports come in, each as the text of a MATCHES.
SELECT id, editor, urgent FROM watches WHERE MATCHES(rule,
  '<H>Ferry aground off the harbour</H> <PLACE>Split</PLACE> A ferry with 200 on board ran aground last night. Nobody was hurt.') > 0;
SELECT id, editor FROM watches WHERE MATCHES(rule,
  '<H>Trains stand still</H> <PLACE>Lisbon</PLACE> The walkout of the drivers goes into its third day.') > 0;
SELECT id, editor FROM watches WHERE MATCHES(rule, '<H>Minister of finance resigns</H> <PLACE>Oslo</PLACE> "It is time", she said.') > 0;
SELECT id FROM watches WHERE MATCHES(rule, 'The fire brigade helped a minister who had lost his keys.') > 0;

-- A stopword in a rule takes any word: "leader of the opposition" is met by "leader in an opposition" as well, and not by "opposition leader".
SELECT id, editor FROM watches WHERE MATCHES(rule, 'Mr Roy is the leader in an opposition of three.') > 0;
SELECT id, editor FROM watches WHERE MATCHES(rule, 'The opposition leader, Mr Roy, is ill.') > 0;

-- 8:30. The three faulty rules are mended. A row whose rule is set waits, so nothing is found by it before the index is synchronised.
UPDATE watches SET rule = 'café OR bar' WHERE id = 32;
UPDATE watches SET rule = 'recipe AND (soup OR stew)' WHERE id = 41;
EXEC CTX_THES.CREATE_THESAURUS('kitchen');
EXEC CTX_THES.CREATE_RELATION('kitchen', 'soup', 'SYN', 'caldo verde');
UPDATE watches SET rule = 'SYN(soup, kitchen)' WHERE id = 42;
SELECT * FROM CTX_USER_INDEX_ERRORS;
SELECT * FROM CTX_USER_PENDING;
SELECT id FROM watches WHERE MATCHES(rule, 'A recipe for caldo verde, a soup of cabbage, as the cafe Estrela makes it') > 0;
EXEC CTX_DDL.SYNC_INDEX('watch_index');
SELECT id, editor FROM watches WHERE MATCHES(rule, 'A recipe for caldo verde, a soup of cabbage, as the cafe Estrela makes it') > 0;

-- 9:00. Which rules the next report meets, by editor; and how many another one meets.
SELECT editor, id FROM watches WHERE MATCHES(rule, '<H>Storms close the harbour</H> Gale and rain. No train has left Lisbon.') > 0 ORDER BY editor, id DESC;
SELECT COUNT(*) FROM watches WHERE MATCHES(rule, '<H>Cup final</H> Goal, goal, goal: 3-2 in the final minute of the cup. The final score flatters them.') > 0;
SELECT id FROM watches WHERE MATCHES(rule, 'Rugby: the cup final is on Sunday.') > 0;
SELECT id FROM watches WHERE MATCHES(rule, 'They won the cup. The final was dull, with one goal.') > 0;

-- Only what rings.
SELECT editor FROM watches WHERE MATCHES(rule, 'Fire on a tanker. A strike at the railway yard, and a storm is coming.') > 0 AND urgent = 1 ORDER BY editor;

-- 10:15. Björn is off; his rules don't ring meanwhile. No rule is set, so none has to be read again.
UPDATE watches SET urgent = 0 WHERE editor = 'Björn';
SELECT editor FROM watches WHERE MATCHES(rule, 'Fire on a tanker. A strike at the railway yard, and a storm is coming.') > 0 AND urgent = 1 ORDER BY editor;

-- 11:00. A thesaurus gets a term. A rule that asked it keeps the terms that it had, until it is set again, even to what it was.
EXEC CTX_THES.CREATE_RELATION('desk', 'trawler', 'BT', 'ship');
EXEC CTX_DDL.SYNC_INDEX('watch_index');
SELECT id FROM watches WHERE MATCHES(rule, 'Collision of two trawlers: one trawler sank.') > 0;
UPDATE watches SET rule = 'NT(ship, desk) AND (fire OR collision OR aground)' WHERE id = 10;
EXEC CTX_DDL.SYNC_INDEX('watch_index');
SELECT id FROM watches WHERE MATCHES(rule, 'Collision of two trawlers: one trawler sank.') > 0;

-- 12:00. Dora leaves, and her rules go. A rule for whatever no other one asks for can't be written; but one for all that isn't sport can.
DELETE FROM watches WHERE editor = 'Dora';
INSERT INTO watches VALUES (50, 'Emil', 'NOT (goal OR cup)', 0);
INSERT INTO watches VALUES (51, 'Emil', '% NOT (goal OR cup)', 0);
EXEC CTX_DDL.SYNC_INDEX('watch_index');
SELECT * FROM CTX_USER_INDEX_ERRORS;
SELECT id, editor FROM watches WHERE MATCHES(rule, '<PLACE>Lisbon</PLACE> The bakers of the old town have a new oven.') > 0;
SELECT id, editor FROM watches WHERE MATCHES(rule, 'The cup is in the bar.') > 0;

-- The rules may be searched as texts, too, by an index of the kind CONTEXT on the same column. Who asks for fires?
CREATE INDEX watch_texts ON watches(rule) INDEXTYPE IS CTXSYS.CONTEXT PARAMETERS ('LEXER wire_lexer');
SELECT id, editor FROM watches WHERE CONTAINS(rule, 'fire') > 0;
