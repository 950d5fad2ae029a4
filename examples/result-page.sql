-- The page of a shop that shows what a search finds: how many there are, ten at a time, and how many at each price and of each kind. One call
-- of CTX_QUERY.RESULT_SET answers all of it.
CREATE TABLE lamps (id NUMBER PRIMARY KEY, body CLOB, kind VARCHAR2(20), price NUMBER);
INSERT INTO lamps VALUES (1, 'Desk lamp of steel, red', 'desk', 30);
INSERT INTO lamps VALUES (2, 'Desk lamp with a lamp for reading, red shade, red cord', 'desk', 50);
INSERT INTO lamps VALUES (3, 'Floor lamp, red', 'floor', 90);
INSERT INTO lamps VALUES (4, 'Floor lamp of oak, white', 'floor', 120);
INSERT INTO lamps VALUES (5, 'Wall lamp, red or blue', 'wall', 30);
INSERT INTO lamps VALUES (6, 'Wall lamp for two bulbs, red', 'wall', 50);
INSERT INTO lamps VALUES (7, 'Lantern, red', 'garden', 20);
INSERT INTO lamps VALUES (8, 'Garden lamp, red glass, red post, red foot', 'garden', 90);
INSERT INTO lamps VALUES (9, 'Bedside lamp, red', 'desk', 30);
INSERT INTO lamps VALUES (10, 'Bedside lamp for children, red and green', 'desk', 20);
INSERT INTO lamps VALUES (11, 'Ceiling lamp, red', 'ceiling', 50);
INSERT INTO lamps VALUES (12, 'Ceiling lamp of paper, red, round', 'ceiling', 20);
INSERT INTO lamps VALUES (13, 'Ceiling lamp of paper, white, round', 'ceiling', 20);
INSERT INTO lamps VALUES (14, 'Night lamp, red, for a socket', 'wall', 20);
CREATE INDEX lamp_index ON lamps(body) INDEXTYPE IS CTXSYS.CONTEXT;

-- The first page: all hits are counted, the best ten are shown, and behind them how many hits there are of each price and of each kind.
EXEC CTX_QUERY.RESULT_SET('lamp_index', 'red AND lamp', 'count / hits 1 to 10 order by score desc, price / group price / group kind');

-- The second page asks for the hits alone: the count and the groups are those of the first one.
EXEC CTX_QUERY.RESULT_SET('lamp_index', 'red AND lamp', 'hits 11 to 20 order by score desc, price');

-- Sorted by price, as the customer wishes; and what costs the same by how well it fits.
EXEC CTX_QUERY.RESULT_SET('lamp_index', 'red AND lamp', 'hits 1 to 10 order by price desc, score desc');

-- A hit is a key and a score. What else the page shows of the ten it asks for by their keys.
SELECT id, body, price FROM lamps WHERE id IN (3, 8, 2) ORDER BY price DESC;

-- The customer takes the group of the price 20. A result set has no conditions; a SELECT does.
SELECT id, SCORE(1), kind FROM lamps WHERE CONTAINS(body, 'red AND lamp', 1) > 0 AND price = 20 ORDER BY SCORE(1) DESC, kind;

-- A new lamp is on the page once the index is synchronised; a price that is changed is there at once.
INSERT INTO lamps VALUES (15, 'Desk lamp, red, red, red: sale! A lamp, a lamp', 'desk', 15);
UPDATE lamps SET price = 25 WHERE kind = 'ceiling';
EXEC CTX_QUERY.RESULT_SET('lamp_index', 'red AND lamp', 'count / group price / hits 1 to 2 order by score desc');
EXEC CTX_DDL.SYNC_INDEX('lamp_index');
EXEC CTX_QUERY.RESULT_SET('lamp_index', 'red AND lamp', 'count / hits 1 to 2 order by score desc');

-- Nothing found: the count says so, and a page without one has no rows.
EXEC CTX_QUERY.RESULT_SET('lamp_index', 'chandelier', 'count / hits 1 to 10 / group price');
EXEC CTX_QUERY.RESULT_SET('lamp_index', 'chandelier', 'hits 1 to 10');

-- What a page may get wrong: a column that isn't there, hits that are counted from 0, and a comma between parts.
EXEC CTX_QUERY.RESULT_SET('lamp_index', 'lamp', 'group colour');
EXEC CTX_QUERY.RESULT_SET('lamp_index', 'lamp', 'hits 0 to 9');
EXEC CTX_QUERY.RESULT_SET('lamp_index', 'lamp', 'count, hits 1 to 10');
