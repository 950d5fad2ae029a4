-- which words a catalogue finds: by patterns, by its lexer and its stopwords, and in a CLOB
CREATE TABLE words (id NUMBER PRIMARY KEY, body VARCHAR2(60));
CREATE INDEX wi ON words(body) INDEXTYPE IS CTXCAT;
INSERT INTO words VALUES (1,'lamp');
INSERT INTO words VALUES (2,'Lamps');
INSERT INTO words VALUES (3,'clamp');
INSERT INTO words VALUES (4,'lump lap, lip');
INSERT INTO words VALUES (5,'l 1,000.50');
INSERT INTO words VALUES (6,'x-ray lamp.post');
INSERT INTO words VALUES (7,'Café straße');
INSERT INTO words VALUES (8,'ΣΊΣΥΦΟΣ 日本語');
INSERT INTO words VALUES (9,'lampshade of a lamp');
-- a `*` takes any characters of one word, or none
SELECT id FROM words WHERE CATSEARCH(body,'l*',NULL) > 0;
SELECT id FROM words WHERE CATSEARCH(body,'l*p',NULL) > 0;
SELECT id FROM words WHERE CATSEARCH(body,'l*m*p',NULL) > 0;
SELECT id FROM words WHERE CATSEARCH(body,'la**p',NULL) > 0;
SELECT id FROM words WHERE CATSEARCH(body,'lamp*s',NULL) > 0;
SELECT id FROM words WHERE CATSEARCH(body,'lamp*shade',NULL) > 0;
SELECT id FROM words WHERE CATSEARCH(body,'LAM*P*S*',NULL) > 0;
SELECT id FROM words WHERE CATSEARCH(body,'l*mp*mp',NULL) > 0;
SELECT COUNT(*) FROM words WHERE CATSEARCH(body,'l* | c* | x* | σ*',NULL) > 0;
-- beside other words, taken away, and within parentheses; each row comes once, however many of its words fit
SELECT id FROM words WHERE CATSEARCH(body,'l* - lamp',NULL) > 0;
SELECT id FROM words WHERE CATSEARCH(body,'lamp - l*d*e',NULL) > 0;
SELECT id FROM words WHERE CATSEARCH(body,'l*p li* lu*',NULL) > 0;
SELECT id FROM words WHERE CATSEARCH(body,'(l*s|c*p) - "clamp"',NULL) > 0;
SELECT id FROM words WHERE CATSEARCH(body,'l*"lip"',NULL) > 0;
-- what stands around a `*` is keyed as words are, and is no phrase: a hyphen stays in the pattern, and no key has one
SELECT id FROM words WHERE CATSEARCH(body,'x-r*',NULL) > 0;
SELECT id FROM words WHERE CATSEARCH(body,'-*lamp',NULL) > 0;
SELECT id FROM words WHERE CATSEARCH(body,'1*50',NULL) > 0;
SELECT id FROM words WHERE CATSEARCH(body,'1,*.5*',NULL) > 0;
SELECT id FROM words WHERE CATSEARCH(body,'CAF*É',NULL) > 0;
SELECT id FROM words WHERE CATSEARCH(body,'caf*e',NULL) > 0;
SELECT id FROM words WHERE CATSEARCH(body,'STRASS*',NULL) > 0;
SELECT id FROM words WHERE CATSEARCH(body,'stra*ß*e',NULL) > 0;
SELECT id FROM words WHERE CATSEARCH(body,'σίσ*σ',NULL) > 0;
SELECT id FROM words WHERE CATSEARCH(body,'日*語',NULL) > 0;
-- no other sign is any character, and between quotes a `*` isn't
SELECT id FROM words WHERE CATSEARCH(body,'la%',NULL) > 0;
SELECT id FROM words WHERE CATSEARCH(body,'l_mp',NULL) > 0;
SELECT id FROM words WHERE CATSEARCH(body,'l?mp',NULL) > 0;
SELECT id FROM words WHERE CATSEARCH(body,'"l*"',NULL) > 0;
SELECT id FROM words WHERE CATSEARCH(body,'"lamp*post"',NULL) > 0;
-- a word doesn't begin with one, in whatever it stands
SELECT id FROM words WHERE CATSEARCH(body,'*amp',NULL) > 0;
SELECT id FROM words WHERE CATSEARCH(body,'lamp | *',NULL) > 0;
SELECT id FROM words WHERE CATSEARCH(body,'lamp (l* - **p)',NULL) > 0;
-- a lexer: joins of every kind, numbers with other signs, letters by their case and without their accents
EXEC CTX_DDL.CREATE_PREFERENCE('joins','BASIC_LEXER');
EXEC CTX_DDL.SET_ATTRIBUTE('joins','printjoins','_');
EXEC CTX_DDL.SET_ATTRIBUTE('joins','skipjoins','-''');
EXEC CTX_DDL.SET_ATTRIBUTE('joins','startjoins','#@');
EXEC CTX_DDL.SET_ATTRIBUTE('joins','endjoins','+%');
EXEC CTX_DDL.SET_ATTRIBUTE('joins','numjoin',',');
EXEC CTX_DDL.SET_ATTRIBUTE('joins','numgroup','');
EXEC CTX_DDL.SET_ATTRIBUTE('joins','base_letter','YES');
EXEC CTX_DDL.SET_ATTRIBUTE('joins','mixed_case','YES');
CREATE TABLE tags (id NUMBER PRIMARY KEY, body VARCHAR2(60));
CREATE INDEX ti ON tags(body) INDEXTYPE IS CTXCAT PARAMETERS ('LEXER joins');
INSERT INTO tags VALUES (1,'C++ and #tag');
INSERT INTO tags VALUES (2,'a#tag tag_line');
INSERT INTO tags VALUES (3,'X-ray, d''été 3,14');
INSERT INTO tags VALUES (4,'Xray Tag 3.14');
INSERT INTO tags VALUES (5,'100% c+');
SELECT id FROM tags WHERE CATSEARCH(body,'C++',NULL) > 0;
SELECT id FROM tags WHERE CATSEARCH(body,'C+',NULL) > 0;
SELECT id FROM tags WHERE CATSEARCH(body,'c+',NULL) > 0;
SELECT id FROM tags WHERE CATSEARCH(body,'#tag',NULL) > 0;
SELECT id FROM tags WHERE CATSEARCH(body,'tag',NULL) > 0;
SELECT id FROM tags WHERE CATSEARCH(body,'#*',NULL) > 0;
SELECT id FROM tags WHERE CATSEARCH(body,'tag_* | "tag_line"',NULL) > 0;
SELECT id FROM tags WHERE CATSEARCH(body,'Xray',NULL) > 0;
SELECT id FROM tags WHERE CATSEARCH(body,'x-ray',NULL) > 0;
SELECT id FROM tags WHERE CATSEARCH(body,'X-r*',NULL) > 0;
SELECT id FROM tags WHERE CATSEARCH(body,'X*',NULL) > 0;
SELECT id FROM tags WHERE CATSEARCH(body,'dete',NULL) > 0;
SELECT id FROM tags WHERE CATSEARCH(body,'"D''été" | dé*é',NULL) > 0;
SELECT id FROM tags WHERE CATSEARCH(body,'3,14',NULL) > 0;
SELECT id FROM tags WHERE CATSEARCH(body,'3.14',NULL) > 0;
SELECT id FROM tags WHERE CATSEARCH(body,'100%',NULL) > 0;
SELECT id FROM tags WHERE CATSEARCH(body,'100',NULL) > 0;
-- a `-` that is a skipjoin is nothing in a pattern, and so is an accent by itself: a word may end as is asked, or be any word
SELECT id FROM tags WHERE CATSEARCH(body,'-*ray',NULL) > 0;
SELECT id FROM tags WHERE CATSEARCH(body,'-*',NULL) > 0;
SELECT id FROM tags WHERE CATSEARCH(body,'́*ete',NULL) > 0;
SELECT id FROM tags WHERE CATSEARCH(body,'Xr* - -*_*',NULL) > 0;
-- stopwords: told by their keys, by the lexer of the index
EXEC CTX_DDL.CREATE_STOPLIST('small');
EXEC CTX_DDL.ADD_STOPWORD('small','THE');
EXEC CTX_DDL.ADD_STOPWORD('small','à');
EXEC CTX_DDL.ADD_STOPWORD('small','of the');
EXEC CTX_DDL.ADD_STOPWORD('small','of');
CREATE TABLE books (id NUMBER PRIMARY KEY, body CLOB);
CREATE INDEX bi ON books(body) INDEXTYPE IS CTXCAT PARAMETERS ('STOPLIST small');
INSERT INTO books VALUES (1,'The');
INSERT INTO books VALUES (2,'The lord of the rings');
INSERT INTO books VALUES (3,'Lord à la carte');
INSERT INTO books VALUES (4,'A lord and two rings, a ring');
INSERT INTO books VALUES (5,'of, THE: à');
INSERT INTO books VALUES (6,'lord of rings');
-- alone they find nothing, in every form; nor does a pattern find them, and nothing is taken away by them
SELECT id FROM books WHERE CATSEARCH(body,'the',NULL) > 0;
SELECT id FROM books WHERE CATSEARCH(body,'The of | à',NULL) > 0;
SELECT id FROM books WHERE CATSEARCH(body,'"the of the"',NULL) > 0;
SELECT id FROM books WHERE CATSEARCH(body,'the - lord',NULL) > 0;
SELECT COUNT(*) FROM books WHERE CATSEARCH(body,'(the | (of - à))','') > 0;
SELECT id FROM books WHERE CATSEARCH(body,'th*',NULL) > 0;
SELECT id FROM books WHERE CATSEARCH(body,'lord - the',NULL) > 0;
SELECT id FROM books WHERE CATSEARCH(body,'lord - th*',NULL) > 0;
SELECT id FROM books WHERE CATSEARCH(body,'lord - "of the"',NULL) > 0;
SELECT id FROM books WHERE CATSEARCH(body,'lord the rings',NULL) > 0;
SELECT id FROM books WHERE CATSEARCH(body,'the | a',NULL) > 0;
-- within a phrase each takes any one word, a stopword too; at its ends they are left out
SELECT id FROM books WHERE CATSEARCH(body,'"lord of the rings"',NULL) > 0;
SELECT id FROM books WHERE CATSEARCH(body,'"lord à the rings"',NULL) > 0;
SELECT id FROM books WHERE CATSEARCH(body,'"lord the rings"',NULL) > 0;
SELECT id FROM books WHERE CATSEARCH(body,'"the lord of"',NULL) > 0;
SELECT id FROM books WHERE CATSEARCH(body,'"of the rings"',NULL) > 0;
SELECT id FROM books WHERE CATSEARCH(body,'lord-of-the-rings - of-the-lord-of',NULL) > 0;
SELECT id FROM books WHERE CATSEARCH(body,'"lord the la"',NULL) > 0;
SELECT id FROM books WHERE CATSEARCH(body,'"la carte" "lord of of carte"',NULL) > 0;
-- a CLOB of many words and lines. It has no sections: tags are words, and nothing is left out
INSERT INTO books VALUES (7,'<b>Red</b> hat
with a | and a \ in it.
Red');
SELECT * FROM books WHERE CATSEARCH(body,'"red b hat"',NULL) > 0;
SELECT id FROM books WHERE CATSEARCH(body,'"hat with"',NULL) > 0;
SELECT id, body FROM books WHERE CATSEARCH(body,'"it red" - lord',NULL) > 0;
SELECT COUNT(*) FROM books WHERE CATSEARCH(body,'<b> | b',NULL) > 0;
SELECT id FROM books WHERE CATSEARCH(body,'hat',NULL) > 0 AND body = 'hat';
SELECT id FROM books WHERE CATSEARCH(body,'hat','body = ''hat''') > 0;
SELECT id FROM books WHERE CATSEARCH(body,'hat','ORDER BY body') > 0;
UPDATE books SET body = '' WHERE id = 7;
SELECT id FROM books WHERE CATSEARCH(body,'red',NULL) > 0;
