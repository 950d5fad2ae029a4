-- The thesaurus of a bicycle shop: which words mean the same, which are broader than others, and which one the shop prefers.

EXEC CTX_THES.CREATE_THESAURUS('shop');

-- What there is to buy, from the broader terms to the narrower ones. A term may have several words.
EXEC CTX_THES.CREATE_RELATION('shop', 'bicycle', 'NT', 'touring bike');
EXEC CTX_THES.CREATE_RELATION('shop', 'bicycle', 'NT', 'racing bike');
EXEC CTX_THES.CREATE_RELATION('shop', 'bicycle', 'NT', 'tandem');
EXEC CTX_THES.CREATE_RELATION('shop', 'racing bike', 'NT', 'time trial bike');
EXEC CTX_THES.CREATE_RELATION('shop', 'vehicle', 'NT', 'bicycle');
EXEC CTX_THES.CREATE_RELATION('shop', 'vehicle', 'NT', 'scooter');

-- Words that mean the same; and those that customers use, with the ones that the shop writes.
EXEC CTX_THES.CREATE_RELATION('shop', 'tyre', 'SYN', 'tire');
EXEC CTX_THES.CREATE_RELATION('shop', 'gear', 'SYN', 'gears');
EXEC CTX_THES.CREATE_RELATION('shop', 'gears', 'SYN', 'derailleur');
EXEC CTX_THES.CREATE_RELATION('shop', 'push bike', 'USE', 'bicycle');
EXEC CTX_THES.CREATE_RELATION('shop', 'tube', 'PT', 'inner tube');

-- What is stated already, also the other way round; a second preferred term; a word that names no relation; another thesaurus.
EXEC CTX_THES.CREATE_RELATION('shop', 'Touring  Bike', 'BT', 'Bicycle');
EXEC CTX_THES.CREATE_RELATION('shop', 'tire', 'SYN', 'tyre');
EXEC CTX_THES.CREATE_RELATION('shop', 'tube', 'PT', 'tyre');
EXEC CTX_THES.CREATE_RELATION('shop', 'tyre', 'PART OF', 'bicycle');
EXEC CTX_THES.CREATE_RELATION('stock', 'tyre', 'BT', 'part');

CREATE TABLE products (id NUMBER PRIMARY KEY, body CLOB, price NUMBER);
INSERT INTO products VALUES (1, 'Touring bike with eight gears, and lights.', 900);
INSERT INTO products VALUES (2, 'Racing bike, 22 gears, without lights.', 2100);
INSERT INTO products VALUES (3, 'Time trial bike. One gear.', 5200);
INSERT INTO products VALUES (4, 'Bicycle for children, without gears.', 200);
INSERT INTO products VALUES (5, 'Scooter with a tire of 200 mm.', 90);
INSERT INTO products VALUES (6, 'Derailleur for a racing bike.', 80);
INSERT INTO products VALUES (7, 'Inner tube, and a tyre for it.', 15);
CREATE INDEX shop_index ON products(body) INDEXTYPE IS CTXSYS.CONTEXT;

-- Bicycles, and what is narrower by one step; then by two; then all vehicles but bicycles.
SELECT id, SCORE(1) FROM products WHERE CONTAINS(body, 'NT(bicycle, shop)', 1) > 0;
SELECT id, SCORE(1) FROM products WHERE CONTAINS(body, 'NT(bicycle, 2, shop)', 1) > 0;
SELECT id FROM products WHERE CONTAINS(body, 'NT(vehicle, shop) NOT NT(bicycle, 2, shop)') > 0;

-- Broader terms; synonyms by several steps; the preferred term.
SELECT id FROM products WHERE CONTAINS(body, 'BT(time trial bike, 2, shop)') > 0;
SELECT id FROM products WHERE CONTAINS(body, 'SYN(tyre, shop)') > 0;
SELECT id, SCORE(1) FROM products WHERE CONTAINS(body, 'SYN(derailleur, shop)', 1) > 0;
SELECT id FROM products WHERE CONTAINS(body, 'PT(push bike, shop) OR PT(Tube, shop)') > 0;

-- With other operators, and with conditions.
SELECT id FROM products WHERE CONTAINS(body, 'NT(bicycle, 2, shop) AND SYN(gear, shop) NOT lights') > 0;
SELECT id FROM products WHERE CONTAINS(body, 'NEAR((NT(bicycle, 2, shop), SYN(gear, shop)), 3)') > 0;
SELECT id, price FROM products WHERE CONTAINS(body, 'NT(bicycle, 2, shop)') > 0 AND price < 1000;

-- Words that end in bike; and ten points for each time that a narrower term of bicycle stands there.
SELECT id FROM products WHERE CONTAINS(body, '%bike') > 0;
SELECT id, SCORE(1) FROM products WHERE CONTAINS(body, 'DEFINESCORE(NT(bicycle, 2, shop), OCCURRENCE * 10)', 1) > 0;

-- A relation that comes later is seen at once. A thesaurus has to be there.
EXEC CTX_THES.CREATE_RELATION('shop', 'scooter', 'SYN', 'bicycle');
SELECT id FROM products WHERE CONTAINS(body, 'SYN(bicycle, shop)') > 0;
SELECT id FROM products WHERE CONTAINS(body, 'SYN(bicycle, stock)') > 0;
SELECT id FROM products WHERE CONTAINS(body, 'SYN(bicycle)') > 0;
