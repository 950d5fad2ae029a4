-- The products of a bicycle shop: first it is defined how its texts are read, then the index is made, and then it is searched.

-- Which words are the same. A hyphen doesn't count, so E-Bike and ebike are one word, as 28-622 and 28622 are; nor do accents.
EXEC CTX_DDL.CREATE_PREFERENCE('shop_lexer', 'BASIC_LEXER');
EXEC CTX_DDL.SET_ATTRIBUTE('shop_lexer', 'skipjoins', '-');
EXEC CTX_DDL.SET_ATTRIBUTE('shop_lexer', 'base_letter', 'YES');
EXEC CTX_DOC.POLICY_TOKENS('shop_lexer', 'E-Bike by Kálmán, 28-622, 1,250 W');

-- A word that stands in nearly every text, and that nobody searches for.
EXEC CTX_DDL.CREATE_STOPLIST('shop_words');
EXEC CTX_DDL.ADD_STOPWORD('shop_words', 'for');

-- What stands between tags. A product's name and brand are found as every word is; what the shop notes for itself only where asked for.
EXEC CTX_DDL.CREATE_SECTION_GROUP('shop_tags', 'BASIC_SECTION_GROUP');
EXEC CTX_DDL.ADD_ZONE_SECTION('shop_tags', 'name', 'NAME');
EXEC CTX_DDL.ADD_FIELD_SECTION('shop_tags', 'brand', 'BRAND', TRUE);
EXEC CTX_DDL.ADD_FIELD_SECTION('shop_tags', 'note', 'NOTE');
EXEC CTX_DDL.ADD_SPECIAL_SECTION('shop_tags', 'SENTENCE');

-- The products that are there when the index is made are in it at once.
CREATE TABLE products (id NUMBER PRIMARY KEY, body CLOB, price NUMBER);
INSERT INTO products VALUES (10,
  '<NAME>City e-bike</NAME> <BRAND>Kálmán</BRAND> An e-bike with lights and a lock. <NOTE>Sold by Velo Nord too</NOTE>', 2400);
INSERT INTO products VALUES (11, '<NAME>Ebike for children</NAME> <BRAND>Velo Nord</BRAND> Light, and quick to fold.', 1100);
INSERT INTO products VALUES (20, '<NAME>Tyre 28-622</NAME> <BRAND>Kalman</BRAND> For city bikes with rims of 19 mm.', 25);
CREATE INDEX shop_index ON products(body) INDEXTYPE IS CTXSYS.CONTEXT
  PARAMETERS ('LEXER shop_lexer STOPLIST shop_words SECTION GROUP shop_tags');

-- Products are found however their words are written, in the text or by the customer. The score counts the name as well.
SELECT id, SCORE(1) FROM products WHERE CONTAINS(body, 'ebike', 1) > 0;
SELECT id, price FROM products WHERE CONTAINS(body, 'KALMAN') > 0 AND price < 100;

-- The bicycles of Velo Nord, and not the one whose note has this name. A stopword finds nothing, and neither does a tag.
SELECT id FROM products WHERE CONTAINS(body, 'velo') > 0;
SELECT id FROM products WHERE CONTAINS(body, 'for') > 0;
SELECT COUNT(*) FROM products WHERE CONTAINS(body, 'brand') > 0;

-- Queries of several words. A customer asks for an e-bike, and not for children; or for words side by side; or near each other.
SELECT id FROM products WHERE CONTAINS(body, 'ebike NOT children') > 0;
SELECT id, SCORE(1) FROM products WHERE CONTAINS(body, 'city * 2 OR light = lights', 1) > 0;
SELECT id FROM products WHERE CONTAINS(body, 'city bikes') > 0;
SELECT id FROM products WHERE CONTAINS(body, 'NEAR((lights, lock), 3)') > 0;

-- A query may name a section: the name of a product, its brand, one sentence of its text, and the note that no other query finds.
SELECT id FROM products WHERE CONTAINS(body, 'ebike WITHIN name AND velo nord WITHIN brand') > 0;
SELECT id FROM products WHERE CONTAINS(body, '(light AND quick) WITHIN SENTENCE') > 0;
SELECT id FROM products WHERE CONTAINS(body, 'velo WITHIN note') > 0;
SELECT id FROM products WHERE CONTAINS(body, 'velo WITHIN supplier') > 0;

-- A product that comes later is read in the same way, once the index is synchronised.
INSERT INTO products VALUES (30, '<NAME>Lock</NAME> <BRAND>Böhme</BRAND> A lock of steel, 1.5 kg.', 40);
EXEC CTX_DDL.SYNC_INDEX('shop_index');
SELECT id, SCORE(1) FROM products WHERE CONTAINS(body, 'lock', 1) > 0;

-- The best match first; and what one would pay, from the cheapest up.
SELECT id, SCORE(1) FROM products WHERE CONTAINS(body, 'lock', 1) > 0 ORDER BY SCORE(1) DESC;
SELECT id, price FROM products WHERE CONTAINS(body, 'ebike OR lock') > 0 ORDER BY price;

-- The index has copied its preferences. A stopword that is added now doesn't touch it; an index that is made anew has it.
EXEC CTX_DDL.ADD_STOPWORD('shop_words', 'city');
SELECT id FROM products WHERE CONTAINS(body, 'city') > 0;
DROP INDEX shop_index;
-- A name that isn't there: nothing is made.
CREATE INDEX shop_index ON products(body) INDEXTYPE IS CTXSYS.CONTEXT PARAMETERS ('LEXER shop_lexer SECTION GROUP shop_group');
CREATE INDEX shop_index ON products(body) INDEXTYPE IS CTXSYS.CONTEXT
  PARAMETERS ('LEXER shop_lexer STOPLIST shop_words SECTION GROUP shop_tags');
SELECT id FROM products WHERE CONTAINS(body, 'city') > 0;
