-- A day at an auction: two hundred lots, each with a title, the highest bid so far, and the time at which it closes. A catalogue index
-- finds lots by the words of their titles together with these, and in the order that is asked for. It is up to date after each statement.

-- How titles are read: accents don't count, and neither do some little words.
EXEC CTX_DDL.CREATE_PREFERENCE('lot_lexer', 'BASIC_LEXER');
EXEC CTX_DDL.SET_ATTRIBUTE('lot_lexer', 'base_letter', 'YES');
EXEC CTX_DDL.CREATE_STOPLIST('lot_words');
EXEC CTX_DDL.ADD_STOPWORD('lot_words', 'of');
EXEC CTX_DDL.ADD_STOPWORD('lot_words', 'with');
EXEC CTX_DDL.ADD_STOPWORD('lot_words', 'a');

-- By which columns lots are to be found beside their words: when they close, what they cost, and of which kind they are.
EXEC CTX_DDL.CREATE_INDEX_SET('lot_set');
EXEC CTX_DDL.ADD_INDEX('lot_set', 'ends, price');
EXEC CTX_DDL.ADD_INDEX('lot_set', 'price');
EXEC CTX_DDL.ADD_INDEX('lot_set', 'kind, price');

-- A time is a number: 930 is half past nine.
CREATE TABLE lots (id NUMBER PRIMARY KEY, title VARCHAR2(100), kind VARCHAR2(20), price NUMBER, ends NUMBER);
CREATE INDEX lot_index ON lots(title) INDEXTYPE IS CTXSYS.CTXCAT PARAMETERS ('LEXER lot_lexer STOPLIST lot_words INDEX SET lot_set');

INSERT INTO lots VALUES (101, 'Table lamp of pewter, 1900', 'light', 90, 1730);
INSERT INTO lots VALUES (102, 'Silver candlestick, Dresden', 'light', 115, 1800);
INSERT INTO lots VALUES (103, 'Pewter oil lamp', 'light', 75, 1730);
INSERT INTO lots VALUES (104, 'Two volumes of bound newspapers, Paris 1910', 'books', 60, 1400);
INSERT INTO lots VALUES (105, 'Wine glasses, set of six of crystal, 1925', 'glass', 45, 1200);
INSERT INTO lots VALUES (106, 'Leather travelling clock, Paris 1810', 'clock', 50, 1700);
INSERT INTO lots VALUES (107, 'Vase of crystal, 1810', 'glass', 195, 1700);
INSERT INTO lots VALUES (108, 'Table of walnut, 1880', 'furniture', 530, 1400);
INSERT INTO lots VALUES (109, 'Silver bowl', 'glass', 85, 1800);
INSERT INTO lots VALUES (110, 'Leather travelling clock with a dent', 'clock', 155, 1600);
INSERT INTO lots VALUES (111, 'Table of oak, 1900', 'furniture', 580, 1400);
INSERT INTO lots VALUES (112, 'Bookcase of oak, 1880', 'furniture', 320, 1600);
INSERT INTO lots VALUES (113, 'Tea set of silver, 1905', 'glass', 195, 1300);
INSERT INTO lots VALUES (114, 'Cherry table with a scratch', 'furniture', 185, 1130);
INSERT INTO lots VALUES (115, 'Porcelain vase with a crack', 'glass', 185, 1800);
INSERT INTO lots VALUES (116, 'Paper lampshade', 'light', 30, 1100);
INSERT INTO lots VALUES (117, 'Pine wall clock', 'clock', 390, 1700);
INSERT INTO lots VALUES (118, 'Oak mirror', 'furniture', 135, 1200);
INSERT INTO lots VALUES (119, 'Mahogany card table', 'furniture', 195, 1500);
INSERT INTO lots VALUES (120, 'Silver oil lamp', 'light', 115, 1500);
INSERT INTO lots VALUES (121, 'Iron street lantern with a silk shade', 'light', 250, 1300);
INSERT INTO lots VALUES (122, 'Two volumes of bound newspapers, Vienna', 'books', 135, 1700);
INSERT INTO lots VALUES (123, 'Brass alarm clock, Böhmen 1890', 'clock', 15, 1200);
INSERT INTO lots VALUES (124, 'Cloth-bound cookery book, Böhmen 1810', 'books', 10, 1730);
INSERT INTO lots VALUES (125, 'Two volumes of bound newspapers', 'books', 110, 1300);
INSERT INTO lots VALUES (126, 'Leather-bound atlas, London 1780', 'books', 465, 1600);
INSERT INTO lots VALUES (127, 'Copper candlestick, Sèvres 1925', 'light', 45, 1100);
INSERT INTO lots VALUES (128, 'Walnut chair, Nîmes', 'furniture', 80, 1200);
INSERT INTO lots VALUES (129, 'Pine card table, Böhmen', 'furniture', 210, 1800);
INSERT INTO lots VALUES (130, 'Leather travelling clock, Böhmen', 'clock', 105, 1600);
INSERT INTO lots VALUES (131, 'Candlestick of iron, 1905', 'light', 100, 1700);
INSERT INTO lots VALUES (132, 'Lantern of silver, 1920', 'light', 40, 1730);
INSERT INTO lots VALUES (133, 'Crystal vase, Dresden', 'glass', 205, 1200);
INSERT INTO lots VALUES (134, 'Crystal decanter, Nîmes', 'glass', 60, 1130);
INSERT INTO lots VALUES (135, 'Cloth-bound book of maps, Vienna', 'books', 380, 1100);
INSERT INTO lots VALUES (136, 'Oak wall clock', 'clock', 205, 1730);
INSERT INTO lots VALUES (137, 'Pine mirror, Paris 1910', 'furniture', 130, 1700);
INSERT INTO lots VALUES (138, 'Walnut card table, London 1930', 'furniture', 230, 1800);
INSERT INTO lots VALUES (139, 'Walnut card table, London', 'furniture', 95, 1800);
INSERT INTO lots VALUES (140, 'Wall clock of oak, 1880', 'clock', 55, 1500);
INSERT INTO lots VALUES (141, 'Copper table lamp with the original cord', 'light', 125, 1500);
INSERT INTO lots VALUES (142, 'Silver pocket watch with its box', 'clock', 580, 930);
INSERT INTO lots VALUES (143, 'Mahogany wall clock with a dent', 'clock', 350, 1700);
INSERT INTO lots VALUES (144, 'Leather-bound cookery book, 1880', 'books', 15, 1400);
INSERT INTO lots VALUES (145, 'Vase of glass, 1880', 'glass', 210, 930);
INSERT INTO lots VALUES (146, 'Pocket watch of gold, 1860', 'clock', 375, 1130);
INSERT INTO lots VALUES (147, 'Porcelain bowl, Paris 1780', 'glass', 145, 1130);
INSERT INTO lots VALUES (148, 'Crystal bowl, Dresden', 'glass', 50, 930);
INSERT INTO lots VALUES (149, 'Wall clock of mahogany, 1925', 'clock', 315, 1300);
INSERT INTO lots VALUES (150, 'Cloth-bound book of maps with a map of Vienna', 'books', 80, 1300);
INSERT INTO lots VALUES (151, 'Cloth-bound book of maps, Dresden 1890', 'books', 160, 1730);
INSERT INTO lots VALUES (152, 'Vase of porcelain, 1905', 'glass', 135, 1000);
INSERT INTO lots VALUES (153, 'Walnut wall clock, London', 'clock', 185, 930);
INSERT INTO lots VALUES (154, 'Oak desk', 'furniture', 445, 1500);
INSERT INTO lots VALUES (155, 'Oak mirror with its key', 'furniture', 90, 1600);
INSERT INTO lots VALUES (156, 'Table lamp of copper, 1780', 'light', 95, 1800);
INSERT INTO lots VALUES (157, 'Pine chair with its key', 'furniture', 100, 1800);
INSERT INTO lots VALUES (158, 'Brass travelling clock, Paris', 'clock', 140, 1100);
INSERT INTO lots VALUES (159, 'Crystal wine glasses, set of six', 'glass', 20, 1400);
INSERT INTO lots VALUES (160, 'Writing desk of pine, 1920', 'furniture', 740, 930);
INSERT INTO lots VALUES (161, 'Pine mirror, London', 'furniture', 115, 1300);
INSERT INTO lots VALUES (162, 'Four volumes of bound newspapers, 1900', 'books', 50, 1400);
INSERT INTO lots VALUES (163, 'Mahogany wall clock', 'clock', 195, 1100);
INSERT INTO lots VALUES (164, 'Decanter of glass, 1920', 'glass', 45, 1700);
INSERT INTO lots VALUES (165, 'Leather travelling clock', 'clock', 70, 1500);
INSERT INTO lots VALUES (166, 'Mahogany table, Dresden 1860', 'furniture', 370, 1600);
INSERT INTO lots VALUES (167, 'Steel pocket watch, Nîmes', 'clock', 375, 1000);
INSERT INTO lots VALUES (168, 'Leather-bound book of maps', 'books', 110, 1730);
INSERT INTO lots VALUES (169, 'Leather-bound cookery book, 1925', 'books', 45, 1000);
INSERT INTO lots VALUES (170, 'Silver bowl, Genève 1910', 'glass', 60, 1100);
INSERT INTO lots VALUES (171, 'Crystal vase with a painted rose', 'glass', 125, 930);
INSERT INTO lots VALUES (172, 'Lantern of copper, 1930', 'light', 15, 1800);
INSERT INTO lots VALUES (173, 'Steel alarm clock, Paris', 'clock', 35, 1000);
INSERT INTO lots VALUES (174, 'Four volumes of bound newspapers', 'books', 145, 1800);
INSERT INTO lots VALUES (175, 'Oak mirror', 'furniture', 155, 1100);
INSERT INTO lots VALUES (176, 'Table lamp of silver, 1840', 'light', 55, 1700);
INSERT INTO lots VALUES (177, 'Cherry writing desk, Genève 1925', 'furniture', 570, 1600);
INSERT INTO lots VALUES (178, 'Pine wall clock, Genève 1905', 'clock', 130, 1300);
INSERT INTO lots VALUES (179, 'Four volumes of bound newspapers', 'books', 155, 1100);
INSERT INTO lots VALUES (180, 'Wall clock of oak, 1890', 'clock', 55, 1300);
INSERT INTO lots VALUES (181, 'Travelling clock of brass, 1860', 'clock', 185, 1200);
INSERT INTO lots VALUES (182, 'Cloth-bound book of maps, 1840', 'books', 385, 1500);
INSERT INTO lots VALUES (183, 'Four volumes of bound newspapers', 'books', 150, 930);
INSERT INTO lots VALUES (184, 'Pine writing desk with its key', 'furniture', 350, 1200);
INSERT INTO lots VALUES (185, 'Cherry mirror with a scratch', 'furniture', 60, 1300);
INSERT INTO lots VALUES (186, 'Walnut wall clock, Vienna 1880', 'clock', 150, 1600);
INSERT INTO lots VALUES (187, 'Brass lantern, Genève', 'light', 50, 1600);
INSERT INTO lots VALUES (188, 'Cherry bookcase, London 1950', 'furniture', 395, 1130);
INSERT INTO lots VALUES (189, 'Vase of crystal, 1900', 'glass', 160, 1100);
INSERT INTO lots VALUES (190, 'Porcelain tea set', 'glass', 195, 1700);
INSERT INTO lots VALUES (191, 'Pewter candlestick', 'light', 20, 1200);
INSERT INTO lots VALUES (192, 'Gold pocket watch, Paris 1810', 'clock', 480, 1300);
INSERT INTO lots VALUES (193, 'Copper oil lamp', 'light', 75, 1700);
INSERT INTO lots VALUES (194, 'Cloth-bound book of maps', 'books', 45, 1130);
INSERT INTO lots VALUES (195, 'Silver mantel clock, Vienna', 'clock', 300, 1000);
INSERT INTO lots VALUES (196, 'Glass table lamp, Paris 1780', 'light', 30, 1800);
INSERT INTO lots VALUES (197, 'Cherry wall clock, Dresden', 'clock', 385, 1600);
INSERT INTO lots VALUES (198, 'Leather-bound book of maps, 1920', 'books', 380, 1500);
INSERT INTO lots VALUES (199, 'Pine wall clock', 'clock', 200, 1000);
INSERT INTO lots VALUES (200, 'Vase of crystal, 1950', 'glass', 245, 1100);
INSERT INTO lots VALUES (201, 'Copper street lantern', 'light', 245, 1300);
INSERT INTO lots VALUES (202, 'Alarm clock of steel, 1870', 'clock', 45, 1600);
INSERT INTO lots VALUES (203, 'Pine writing desk', 'furniture', 340, 1100);
INSERT INTO lots VALUES (204, 'Brass alarm clock, London 1900', 'clock', 35, 1400);
INSERT INTO lots VALUES (205, 'Street lantern of iron, 1870', 'light', 65, 1130);
INSERT INTO lots VALUES (206, 'Steel pocket watch, Vienna 1950', 'clock', 110, 1730);
INSERT INTO lots VALUES (207, 'Walnut mirror with a scratch', 'furniture', 180, 930);
INSERT INTO lots VALUES (208, 'Glass wine glasses, set of six, Sèvres', 'glass', 35, 1800);
INSERT INTO lots VALUES (209, 'Leather-bound cookery book with a torn page', 'books', 40, 1100);
INSERT INTO lots VALUES (210, 'Gilt mirror, Dresden', 'furniture', 230, 1600);
INSERT INTO lots VALUES (211, 'Two volumes of bound newspapers, Sèvres', 'books', 90, 1400);
INSERT INTO lots VALUES (212, 'Mahogany desk, Sèvres 1950', 'furniture', 470, 1730);
INSERT INTO lots VALUES (213, 'Pewter table lamp', 'light', 85, 1400);
INSERT INTO lots VALUES (214, 'Two volumes of bound newspapers', 'books', 50, 1730);
INSERT INTO lots VALUES (215, 'Glass lampshade', 'light', 30, 1100);
INSERT INTO lots VALUES (216, 'Cloth-bound atlas, Genève', 'books', 300, 930);
INSERT INTO lots VALUES (217, 'Crystal decanter with a painted rose', 'glass', 40, 1400);
INSERT INTO lots VALUES (218, 'Cherry chair, Dresden 1905', 'furniture', 145, 1730);
INSERT INTO lots VALUES (219, 'Cloth-bound book of maps, London', 'books', 115, 1500);
INSERT INTO lots VALUES (220, 'Iron oil lamp, Dresden 1910', 'light', 70, 1200);
INSERT INTO lots VALUES (221, 'Silver candlestick', 'light', 35, 930);
INSERT INTO lots VALUES (222, 'Crystal decanter, Dresden', 'glass', 15, 1300);
INSERT INTO lots VALUES (223, 'Crystal wine glasses, set of six, London 1810', 'glass', 65, 1130);
INSERT INTO lots VALUES (224, 'Lampshade of paper, 1900', 'light', 30, 1700);
INSERT INTO lots VALUES (225, 'Glass wine glasses, set of six with a painted rose', 'glass', 60, 1800);
INSERT INTO lots VALUES (226, 'Leather-bound cookery book, London', 'books', 20, 1100);
INSERT INTO lots VALUES (227, 'Cherry chair, Vienna', 'furniture', 165, 1100);
INSERT INTO lots VALUES (228, 'Walnut wall clock', 'clock', 145, 1500);
INSERT INTO lots VALUES (229, 'Pine card table, Genève', 'furniture', 165, 1500);
INSERT INTO lots VALUES (230, 'Cherry bookcase with a scratch', 'furniture', 200, 1300);
INSERT INTO lots VALUES (231, 'Copper oil lamp', 'light', 90, 1700);
INSERT INTO lots VALUES (232, 'Alarm clock of brass, 1870', 'clock', 50, 1000);
INSERT INTO lots VALUES (233, 'Lampshade of paper, 1950', 'light', 50, 1500);
INSERT INTO lots VALUES (234, 'Leather-bound atlas, Nîmes 1870', 'books', 215, 1800);
INSERT INTO lots VALUES (235, 'Cloth-bound book of maps with a map of Vienna', 'books', 230, 1400);
INSERT INTO lots VALUES (236, 'Brass travelling clock, Nîmes 1900', 'clock', 145, 1200);
INSERT INTO lots VALUES (237, 'Mirror of pine, 1840', 'furniture', 225, 1200);
INSERT INTO lots VALUES (238, 'Pine writing desk with its key', 'furniture', 530, 1200);
INSERT INTO lots VALUES (239, 'Iron lantern, Sèvres', 'light', 80, 1600);
INSERT INTO lots VALUES (240, 'Pewter lantern', 'light', 55, 1500);
INSERT INTO lots VALUES (241, 'Mahogany rocking chair, London', 'furniture', 80, 1730);
INSERT INTO lots VALUES (242, 'Cloth-bound cookery book, 1920', 'books', 40, 1500);
INSERT INTO lots VALUES (243, 'Oil lamp of pewter, 1925', 'light', 40, 1130);
INSERT INTO lots VALUES (244, 'Cloth-bound book of maps, 1880', 'books', 395, 1600);
INSERT INTO lots VALUES (245, 'Cloth-bound book of maps, 1860', 'books', 60, 1000);
INSERT INTO lots VALUES (246, 'Leather-bound cookery book, Nîmes', 'books', 45, 1700);
INSERT INTO lots VALUES (247, 'Mahogany mirror', 'furniture', 115, 1300);
INSERT INTO lots VALUES (248, 'Copper mantel clock with its box', 'clock', 170, 1100);
INSERT INTO lots VALUES (249, 'Leather-bound atlas, Sèvres 1905', 'books', 180, 1100);
INSERT INTO lots VALUES (250, 'Tea set of porcelain, 1950', 'glass', 210, 1700);
INSERT INTO lots VALUES (251, 'Glass vase with its box', 'glass', 220, 1200);
INSERT INTO lots VALUES (252, 'Pine desk, Paris 1860', 'furniture', 260, 1600);
INSERT INTO lots VALUES (253, 'Walnut rocking chair', 'furniture', 115, 1730);
INSERT INTO lots VALUES (254, 'Glass decanter with its box', 'glass', 45, 1500);
INSERT INTO lots VALUES (255, 'Walnut bookcase', 'furniture', 475, 1500);
INSERT INTO lots VALUES (256, 'Brass table lamp, Nîmes', 'light', 65, 1600);
INSERT INTO lots VALUES (257, 'Glass wine glasses, set of six with a crack', 'glass', 75, 1130);
INSERT INTO lots VALUES (258, 'Glass bowl, Genève 1840', 'glass', 60, 1100);
INSERT INTO lots VALUES (259, 'Pewter oil lamp, Genève 1810', 'light', 85, 1130);
INSERT INTO lots VALUES (260, 'Oak wall clock with its box', 'clock', 165, 1600);
INSERT INTO lots VALUES (261, 'Iron candlestick, Dresden 1870', 'light', 40, 1100);
INSERT INTO lots VALUES (262, 'Lampshade of glass, 1880', 'light', 55, 1300);
INSERT INTO lots VALUES (263, 'Walnut writing desk, Vienna 1810', 'furniture', 435, 1600);
INSERT INTO lots VALUES (264, 'Iron street lantern, Vienna', 'light', 115, 930);
INSERT INTO lots VALUES (265, 'Pewter table lamp, Nîmes 1905', 'light', 55, 1100);
INSERT INTO lots VALUES (266, 'Cherry writing desk, Dresden 1880', 'furniture', 330, 1300);
INSERT INTO lots VALUES (267, 'Cloth-bound atlas, London 1810', 'books', 155, 1700);
INSERT INTO lots VALUES (268, 'Glass wine glasses, set of six', 'glass', 30, 1300);
INSERT INTO lots VALUES (269, 'Mirror of mahogany, 1950', 'furniture', 140, 1000);
INSERT INTO lots VALUES (270, 'Glass decanter with its box', 'glass', 85, 1600);
INSERT INTO lots VALUES (271, 'Crystal bowl with a painted rose', 'glass', 45, 1800);
INSERT INTO lots VALUES (272, 'Copper street lantern, London', 'light', 240, 1600);
INSERT INTO lots VALUES (273, 'Glass table lamp', 'light', 60, 1000);
INSERT INTO lots VALUES (274, 'Iron mantel clock, Vienna 1910', 'clock', 210, 930);
INSERT INTO lots VALUES (275, 'Brass travelling clock, Genève', 'clock', 60, 1130);
INSERT INTO lots VALUES (276, 'Pocket watch of steel, 1780', 'clock', 550, 1800);
INSERT INTO lots VALUES (277, 'Brass oil lamp with the original cord', 'light', 75, 1800);
INSERT INTO lots VALUES (278, 'Table lamp of silver, 1920', 'light', 45, 1600);
INSERT INTO lots VALUES (279, 'Silver bowl', 'glass', 10, 1800);
INSERT INTO lots VALUES (280, 'Pewter lantern with a silk shade', 'light', 80, 1700);
INSERT INTO lots VALUES (281, 'Iron candlestick, Dresden', 'light', 50, 1100);
INSERT INTO lots VALUES (282, 'Silver lantern', 'light', 40, 1500);
INSERT INTO lots VALUES (283, 'Travelling clock of leather, 1780', 'clock', 35, 1200);
INSERT INTO lots VALUES (284, 'Oil lamp of copper, 1950', 'light', 105, 1200);
INSERT INTO lots VALUES (285, 'Silver lantern, Dresden 1925', 'light', 65, 1300);
INSERT INTO lots VALUES (286, 'Iron lantern, Nîmes', 'light', 65, 1300);
INSERT INTO lots VALUES (287, 'Cherry bookcase, Nîmes', 'furniture', 245, 1100);
INSERT INTO lots VALUES (288, 'Lantern of pewter, 1920', 'light', 25, 1130);
INSERT INTO lots VALUES (289, 'Two volumes of bound newspapers, Paris 1950', 'books', 20, 1800);
INSERT INTO lots VALUES (290, 'Crystal bowl', 'glass', 40, 1700);
INSERT INTO lots VALUES (291, 'Porcelain tea set with a crack', 'glass', 80, 1700);
INSERT INTO lots VALUES (292, 'Two volumes of bound newspapers, 1890', 'books', 105, 1730);
INSERT INTO lots VALUES (293, 'Steel pocket watch, Dresden 1910', 'clock', 265, 1130);
INSERT INTO lots VALUES (294, 'Crystal decanter', 'glass', 110, 1600);
INSERT INTO lots VALUES (295, 'Porcelain tea set', 'glass', 285, 1730);
INSERT INTO lots VALUES (296, 'Silver tea set, Nîmes 1870', 'glass', 280, 1300);
INSERT INTO lots VALUES (297, 'Silver mantel clock, Vienna 1860', 'clock', 105, 1400);
INSERT INTO lots VALUES (298, 'Oak chair', 'furniture', 45, 1730);
INSERT INTO lots VALUES (299, 'Steel pocket watch, Dresden 1950', 'clock', 60, 1130);
INSERT INTO lots VALUES (300, 'Mahogany writing desk', 'furniture', 360, 1100);

-- 9:00. The doors open. How many lots are there, and how many lamps, lampshades and all?
SELECT COUNT(*) FROM lots;
SELECT COUNT(*) FROM lots WHERE CATSEARCH(title, 'lamp*', NULL) > 0;

-- A dealer of lamps asks for those that close before noon: the first ones first, and of one time the cheaper ones.
SELECT id, title, price, ends FROM lots WHERE CATSEARCH(title, 'lamp', 'ends < 1200 ORDER BY ends, price') > 0;

-- Words side by side must all be there, in any order. Between double quotes they are a phrase. A - excludes, and a | is an or.
SELECT id, title FROM lots WHERE CATSEARCH(title, 'lamp silver', NULL) > 0;
SELECT id, title FROM lots WHERE CATSEARCH(title, '"table lamp" paris', NULL) > 0;
SELECT id, title, price FROM lots WHERE CATSEARCH(title, 'table - (lamp | card)', 'price <= 400 ORDER BY price DESC') > 0;
SELECT id, title, price FROM lots WHERE CATSEARCH(title, '(walnut | cherry) chair', 'kind = ''furniture'' ORDER BY kind, price') > 0;

-- In a phrase a stopword takes any one word. A word with a hyphen is a phrase of two words here.
SELECT id, title FROM lots WHERE CATSEARCH(title, '"table of oak" | "table of walnut"', NULL) > 0;
SELECT id, title, price FROM lots WHERE CATSEARCH(title, 'leather-bound atlas', 'ORDER BY price') > 0;

-- Accents don't count, in titles and in queries. A * stands for any letters within a word.
SELECT id, title FROM lots WHERE CATSEARCH(title, 'bohmen (clock | book)', NULL) > 0;
SELECT id, title, price FROM lots WHERE CATSEARCH(title, 'mahog* 18*', 'ORDER BY price DESC') > 0;

-- 9:15. The first bids, on a tea set and on the cheapest lamp. A search has the new price at once.
SELECT id, title, price FROM lots WHERE CATSEARCH(title, '"tea set"', 'price < 200 ORDER BY price') > 0;
UPDATE lots SET price = 205 WHERE id = 113;
UPDATE lots SET price = 35 WHERE id = 196;
SELECT id, title, price FROM lots WHERE CATSEARCH(title, '"tea set"', 'price BETWEEN 190 AND 210 ORDER BY price') > 0;

-- 9:30. What has closed is sold, and goes. A bid on it comes too late.
SELECT COUNT(*) FROM lots WHERE ends <= 930;
DELETE FROM lots WHERE ends <= 930;
UPDATE lots SET price = 240 WHERE id = 138 AND ends > 930;
UPDATE lots SET price = 55 WHERE id = 148 AND ends > 930;
SELECT id, title, price FROM lots WHERE CATSEARCH(title, 'crystal bowl', 'ORDER BY price DESC') > 0;

-- 9:45. Two lots come in late. One has a title that is already there.
INSERT INTO lots VALUES (301, 'Crystal bowl', 'glass', 40, 1500);
INSERT INTO lots VALUES (302, 'Bowl of crystal on a silver foot, Vienna 1905', 'glass', 90, 1500);
INSERT INTO lots VALUES (302, 'Silver spoon', 'glass', 10, 1500);
-- Lots of one price come in the order of their numbers, whichever way the prices go.
SELECT id, title, price FROM lots WHERE CATSEARCH(title, 'crystal bowl', 'ORDER BY price DESC') > 0;

-- 10:00. A title was wrong: the lot isn't found by its old words any more.
SELECT id, title FROM lots WHERE CATSEARCH(title, '"copper oil lamp"', NULL) > 0;
UPDATE lots SET title = 'Brass oil lamp with a glass shade' WHERE id = 193;
SELECT id, title FROM lots WHERE CATSEARCH(title, '"copper oil lamp"', NULL) > 0;
SELECT id, title, price FROM lots WHERE CATSEARCH(title, 'brass lamp', 'ORDER BY price, ends DESC') > 0;
DELETE FROM lots WHERE ends <= 1000;

-- What goes wrong. A lot's number is in no sub-index, so a structured query can't ask for it; a condition of the statement can.
SELECT id, title FROM lots WHERE CATSEARCH(title, 'clock', 'id < 120 ORDER BY price') > 0;
SELECT id, title, price FROM lots WHERE CATSEARCH(title, 'clock', 'ORDER BY price') > 0 AND id < 120;
SELECT id FROM lots WHERE CATSEARCH(title, 'clock', 'price < ''fifty''') > 0;
SELECT id FROM lots WHERE CATSEARCH(title, 'clock -', NULL) > 0;
SELECT id FROM lots WHERE CATSEARCH(title, '*clock', NULL) > 0;
SELECT id FROM lots WHERE CATSEARCH(kind, 'clock', NULL) > 0;
SELECT id FROM lots WHERE CATSEARCH(title, 'of', NULL) > 0;

-- 12:00. No clock that is left goes for less than 60, and a late bid lets a lot close a quarter of an hour later.
DELETE FROM lots WHERE ends <= 1200;
UPDATE lots SET price = 60 WHERE kind = 'clock' AND price < 60;
UPDATE lots SET price = 135, ends = 1315 WHERE id = 178;
SELECT id, title, price, ends FROM lots
  WHERE CATSEARCH(title, 'clock', 'price <= 140 AND ends BETWEEN 1300 AND 1500 ORDER BY ends DESC, price') > 0;

-- 18:00. The last lots come up, the dearest first; then the day is over.
DELETE FROM lots WHERE ends < 1800;
SELECT id, title, price FROM lots WHERE CATSEARCH(title, 'lamp*', 'ORDER BY price DESC') > 0;
SELECT id, title, price FROM lots WHERE CATSEARCH(title, 'crystal | porcelain | silver - candlestick', 'ORDER BY price DESC') > 0;
DELETE FROM lots;
SELECT COUNT(*) FROM lots WHERE CATSEARCH(title, 'lamp*', NULL) > 0;
