-- A library has titles in many languages. Words are found in every script, in upper and lower case, and however their accents are written.
CREATE TABLE titles (id NUMBER PRIMARY KEY, title CLOB);
INSERT INTO titles VALUES (1, 'Die Straße der Ölsardinen');
INSERT INTO titles VALUES (2, 'À la recherche du temps perdu: un café, l''été');
INSERT INTO titles VALUES (3, 'Ἄνδρα μοι ἔννεπε, Μοῦσα: Ὀδυσσεύς');
INSERT INTO titles VALUES (4, 'Преступление и наказание');
INSERT INTO titles VALUES (5, 'रामायण और महाभारत');
INSERT INTO titles VALUES (6, 'ألف ليلة وليلة');
INSERT INTO titles VALUES (7, '한국어 사전');
INSERT INTO titles VALUES (8, '源氏物語 / げんじものがたり');
INSERT INTO titles VALUES (9, 'Cafe und Strasse');
CREATE INDEX ti ON titles(title) INDEXTYPE IS CTXSYS.CONTEXT;
-- ß and ss are one, ẞ too
SELECT id FROM titles WHERE CONTAINS(title, 'STRAẞE') > 0;
SELECT id FROM titles WHERE CONTAINS(title, 'ölsardinen') > 0;
-- an accent counts, and may be written as a character of its own: the second café has one
SELECT id FROM titles WHERE CONTAINS(title, 'CAFÉ') > 0;
SELECT id FROM titles WHERE CONTAINS(title, 'café') > 0;
SELECT id FROM titles WHERE CONTAINS(title, 'cafe') > 0;
-- a sigma at the end of a word and within it are one
SELECT id FROM titles WHERE CONTAINS(title, 'ὈΔΥΣΣΕΎΣ') > 0;
SELECT id FROM titles WHERE CONTAINS(title, 'НАКАЗАНИЕ') > 0;
SELECT id FROM titles WHERE CONTAINS(title, 'महाभारत') > 0;
SELECT id FROM titles WHERE CONTAINS(title, 'ليلة') > 0;
SELECT id FROM titles WHERE CONTAINS(title, '한국어') > 0;
-- a run without a blank or a sign is one word
SELECT id FROM titles WHERE CONTAINS(title, '源氏物語') > 0;
SELECT id FROM titles WHERE CONTAINS(title, '源氏') > 0;
EXEC CTX_DOC.POLICY_TOKENS('Ὀδυσσεύς naïve Straße 日本語 ١٢٫٣');
