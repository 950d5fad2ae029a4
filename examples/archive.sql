-- The archive of a newspaper: twenty days, each loaded and taken into the index by itself; then the index is put in order.

EXEC CTX_DDL.CREATE_STOPLIST('small');
EXEC CTX_DDL.ADD_STOPWORD('small', 'the');
EXEC CTX_DDL.ADD_STOPWORD('small', 'is');
EXEC CTX_DDL.ADD_STOPWORD('small', 'a');
EXEC CTX_DDL.ADD_STOPWORD('small', 'of');
EXEC CTX_DDL.ADD_STOPWORD('small', 'in');
EXEC CTX_DDL.ADD_STOPWORD('small', 'on');
CREATE TABLE articles (id NUMBER PRIMARY KEY, day NUMBER, title VARCHAR2(80), body CLOB);
CREATE INDEX ai ON articles(body) INDEXTYPE IS CONTEXT PARAMETERS ('STOPLIST small');

-- day 1
INSERT INTO articles VALUES (1, 1, 'Ferry stays in harbour', 'The morning ferry stayed in the harbour yesterday, as the storm had not yet passed. The council asks commuters to take the bus.');
INSERT INTO articles VALUES (2, 1, 'Museum opens late', 'The museum on the hill now opens until nine on Thursdays. The council pays for the lights, and the director for the guards.');
EXEC CTX_DDL.SYNC_INDEX('ai');
-- day 2
INSERT INTO articles VALUES (3, 2, 'New roof for the school', 'The school in the old town gets a new roof this summer. Lessons move to the library meanwhile, the council says.');
EXEC CTX_DDL.SYNC_INDEX('ai');
-- day 3
INSERT INTO articles VALUES (4, 3, 'Tram line closed', 'The tram to the station is closed until Friday, since a rail broke near the bridge. The council has hired six buses.');
INSERT INTO articles VALUES (5, 3, 'Orchestra plays outdoors', 'The orchestra plays in the park on Sunday at four. If a storm comes, the concert moves to the theatre.');
EXEC CTX_DDL.SYNC_INDEX('ai');
-- day 4
INSERT INTO articles VALUES (6, 4, 'Bakery burns, nobody hurt', 'A fire in the bakery by the market woke the street at two. Nobody was hurt, and the baker sells from a tent until the shop is painted.');
EXEC CTX_DDL.SYNC_INDEX('ai');
-- day 5
INSERT INTO articles VALUES (7, 5, 'Council votes for the bridge', 'The council voted for the bridge across the river by eleven to nine. Work begins in May, and the ferry sails on until it opens.');
EXEC CTX_DDL.SYNC_INDEX('ai');
-- day 6
INSERT INTO articles VALUES (8, 6, 'Storm over the harbour', 'A storm took the roof of the fish hall and two boats in the harbour. The council counts the damage today.');
INSERT INTO articles VALUES (9, 6, 'Library lends tools', 'The library lends drills and ladders from Monday on. Whoever borrows a ladder has to bring it back dry.');
EXEC CTX_DDL.SYNC_INDEX('ai');
-- day 7
INSERT INTO articles VALUES (10, 7, 'Airport asks for a longer runway', 'The airport wants a longer runway. The council of the village behind it has said no for the third time.');
EXEC CTX_DDL.SYNC_INDEX('ai');
-- day 8
INSERT INTO articles VALUES (11, 8, 'Market moves to the park', 'The Saturday market moves to the park while the square is paved. The council expects half as many stalls.');
EXEC CTX_DDL.SYNC_INDEX('ai');
-- day 9
INSERT INTO articles VALUES (12, 9, 'Hospital opens a new wing', 'The hospital opens its new wing on Tuesday. The old one is painted, and then given to the school of nursing.');
EXEC CTX_DDL.SYNC_INDEX('ai');
-- day 10
INSERT INTO articles VALUES (13, 10, 'Ferry fares rise', 'A crossing by ferry costs ten cents more from June on. The council had asked for twenty.');
INSERT INTO articles VALUES (14, 10, 'Theatre looks for a king', 'The theatre looks for an old man who can play a king. The one it had was called back to the orchestra.');
EXEC CTX_DDL.SYNC_INDEX('ai');
-- day 11
INSERT INTO articles VALUES (15, 11, 'Ferry aground', 'The evening ferry ran aground outside the harbour. All ninety passengers were home before midnight, and a second ferry sails today.');
EXEC CTX_DDL.SYNC_INDEX('ai');
-- day 12
INSERT INTO articles VALUES (16, 12, 'Stadium painted in two colours', 'The stadium is painted green by those who sit in the north, and blue by the others. The council won''t choose.');
EXEC CTX_DDL.SYNC_INDEX('ai');
-- day 13
INSERT INTO articles VALUES (17, 13, 'Garden gate open again', 'The botanical garden opens again after the storm. Twelve trees fell, and the council plants thirty.');
EXEC CTX_DDL.SYNC_INDEX('ai');
-- day 14
INSERT INTO articles VALUES (18, 14, 'Bridge late by a year', 'The bridge will be late by a year, the council admits. Until then the ferry sails from the harbour every half hour.');
EXEC CTX_DDL.SYNC_INDEX('ai');
-- day 15
INSERT INTO articles VALUES (19, 15, 'Trams in the night', 'From Friday on a tram leaves the station every hour of the night. The council calls it a trial, and will count the riders.');
EXEC CTX_DDL.SYNC_INDEX('ai');
-- day 16
INSERT INTO articles VALUES (20, 16, 'River over the road', 'The river stood over the road to the airport this morning. The council has sandbags for whoever fetches them.');
INSERT INTO articles VALUES (21, 16, 'School sings for the hospital', 'The school choir sings in the hospital each Sunday in advent. Coats are kept at the door.');
EXEC CTX_DDL.SYNC_INDEX('ai');
-- day 17
INSERT INTO articles VALUES (22, 17, 'Museum buys a boat', 'The museum buys the old ferry. It is to stand in the harbour, painted as it was in 1910.');
EXEC CTX_DDL.SYNC_INDEX('ai');
-- day 18
INSERT INTO articles VALUES (23, 18, 'Market hall sold', 'The council has sold the market hall to the bakery next to it. The stalls may stay for five years.');
EXEC CTX_DDL.SYNC_INDEX('ai');
-- day 19
INSERT INTO articles VALUES (24, 19, 'Storm warning', 'A storm is coming from the west tonight. The council closes the park, and the ferry stays in the harbour.');
EXEC CTX_DDL.SYNC_INDEX('ai');
-- day 20
INSERT INTO articles VALUES (25, 20, 'Storm leaves the ferry whole', 'The storm took tiles and tents, but no boat. The ferry sails again, and the council thanks the crew.');
EXEC CTX_DDL.SYNC_INDEX('ai');

-- The articles of 16 days speak of the council. Each day's synchronisation has stored the word in a piece of its own, so a search for it reads 16
-- pieces. FAST makes one of them; no answer changes.
SELECT COUNT(*) FROM articles WHERE CONTAINS(body, 'council') > 0;
SELECT COUNT(*) FROM articles WHERE CONTAINS(body, 'ferry') > 0;
SELECT COUNT(*) FROM articles WHERE CONTAINS(body, 'harbour AND ferry') > 0;
SELECT COUNT(*) FROM articles WHERE CONTAINS(body, 'ferry NEAR storm') > 0;
SELECT COUNT(*) FROM articles WHERE CONTAINS(body, 'open% OR painted') > 0;
EXEC CTX_DDL.OPTIMIZE_INDEX('ai', 'FAST');
SELECT COUNT(*) FROM articles WHERE CONTAINS(body, 'council') > 0;
SELECT COUNT(*) FROM articles WHERE CONTAINS(body, 'ferry') > 0;
SELECT COUNT(*) FROM articles WHERE CONTAINS(body, 'harbour AND ferry') > 0;
SELECT COUNT(*) FROM articles WHERE CONTAINS(body, 'ferry NEAR storm') > 0;
SELECT COUNT(*) FROM articles WHERE CONTAINS(body, 'open% OR painted') > 0;
SELECT title, SCORE(1) FROM articles WHERE CONTAINS(body, 'ferry', 1) > 0 ORDER BY SCORE(1) DESC, day;

-- The first ten days go to another archive, and one article is corrected. At once their old texts are found no more; but the index still has what
-- it had of them. FULL drops that, here in calls that go through two hundred words each, so that none of them takes long.
DELETE FROM articles WHERE day <= 10;
UPDATE articles SET title = 'Old ferry for the museum', body = 'The museum on the hill is given the old ferry by the council. It is to stand in the harbour, painted as it was in 1910.' WHERE id = 22;
SELECT COUNT(*) FROM articles WHERE CONTAINS(body, 'council') > 0;
SELECT COUNT(*) FROM articles WHERE CONTAINS(body, 'ferry') > 0;
SELECT COUNT(*) FROM articles WHERE CONTAINS(body, 'harbour AND ferry') > 0;
EXEC CTX_DDL.SYNC_INDEX('ai');
EXEC CTX_DDL.OPTIMIZE_INDEX('ai', 'FULL', 200);
EXEC CTX_DDL.OPTIMIZE_INDEX('ai', 'FULL', 200);
SELECT COUNT(*) FROM articles WHERE CONTAINS(body, 'council') > 0;
SELECT COUNT(*) FROM articles WHERE CONTAINS(body, 'ferry') > 0;
SELECT COUNT(*) FROM articles WHERE CONTAINS(body, 'harbour AND ferry') > 0;
SELECT COUNT(*) FROM articles WHERE CONTAINS(body, 'ferry NEAR storm') > 0;
SELECT COUNT(*) FROM articles WHERE CONTAINS(body, 'open% OR painted') > 0;

-- A night without readers: all of it at once. Only now the store counts nothing any more of what was lost.
EXEC CTX_DDL.OPTIMIZE_INDEX('ai', 'FULL');
SELECT id, title FROM articles WHERE CONTAINS(body, 'harbour AND ferry') > 0;
SELECT id, title FROM articles WHERE CONTAINS(body, 'sail% NOT storm') > 0;

-- Titles are to be searched too. All rows are there already; four threads read them at once.
CREATE INDEX ti ON articles(title) INDEXTYPE IS CONTEXT PARALLEL 4;
SELECT id, title FROM articles WHERE CONTAINS(title, 'ferry NOT aground') > 0;
