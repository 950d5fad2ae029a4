#!/usr/bin/env python3
"""Runs worked examples through the model, and compares what it replies with what each is to be answered.

    checks/model/rows.py

The lines up to one that ends with `;` are a statement, and those up to the next statement are its reply, which was worked out by
hand. [ok] is the reply of a procedure, and [none] that of a search without rows. Each example runs over a new store. Those of LATER are
run as if wildcards and DEFINESCORE were built, and those of UNBUILT as if they weren't.
"""

from __future__ import annotations

import re
import sys

sys.dont_write_bytecode = True  # no folder of compiled modules is left here

from model import BUILT, replies

SHORT = {"[ok]": "PL/SQL procedure successfully completed.", "[none]": "no rows selected"}
STATEMENT = re.compile(r"(?:EXEC|CREATE|DROP|INSERT|SELECT|UPDATE|DELETE) .*?;\n", re.DOTALL)

TABLE = """\
CREATE TABLE docs (id NUMBER PRIMARY KEY, body CLOB, price NUMBER);
Table created.
"""
ROW = "INSERT INTO docs VALUES ({key},'{text}',0);\n1 row created.\n"
SYNC = "EXEC CTX_DDL.SYNC_INDEX('di');\n[ok]\n"
ITEMS = """\
EXEC CTX_DDL.CREATE_INDEX_SET('iset');
[ok]
EXEC CTX_DDL.ADD_INDEX('iset','price');
[ok]
CREATE TABLE items (id NUMBER PRIMARY KEY, title VARCHAR2(100), price NUMBER);
Table created.
"""


def index(parameters: str) -> str:
    return f"CREATE INDEX di ON docs(body) INDEXTYPE IS CTXSYS.CONTEXT PARAMETERS ('{parameters}');\nIndex created.\n"


def relate(first: str, relation: str, second: str, reply: str = "[ok]", thesaurus: str = "th") -> str:
    return f"EXEC CTX_THES.CREATE_RELATION('{thesaurus}','{first}','{relation}','{second}');\n{reply}\n"


def search(query: str, *lines: str) -> str:
    found = "\n".join(lines or ["[none]"])
    return f"SELECT id, SCORE(1) FROM docs WHERE CONTAINS(body,'{query}',1) > 0;\n{found}\n"


def count(query: str, number: int) -> str:
    return f"SELECT COUNT(*) FROM docs WHERE CONTAINS(body,'{query}',1) > 0;\n{number}\n"


def search_items(query: str, structured: str, *lines: str) -> str:
    """Returns a search of titles, with a structured query as it is written in the statement."""
    found = "\n".join(lines or ["[none]"])
    return f"SELECT id FROM items WHERE CATSEARCH(title,'{query}',{structured}) > 0;\n{found}\n"


def items(*titles_and_prices: tuple[str, int], parameters: str = "INDEX SET iset") -> str:
    """Returns the statements that make a table of these titles and prices with a catalogue, with the keys from 1 on."""
    rows = (f"INSERT INTO items VALUES ({key},'{title}',{price});\n1 row created.\n" for key, (title, price) in enumerate(titles_and_prices, start=1))
    return ITEMS + f"CREATE INDEX ci ON items(title) INDEXTYPE IS CTXSYS.CTXCAT PARAMETERS ('{parameters}');\nIndex created.\n" + "".join(rows)


def rules(*texts: str) -> str:
    """Returns the statements that make a table of these rules with an index, with the keys from 1 on."""
    rows = (f"INSERT INTO rules VALUES ({key},'{text}');\n1 row created.\n" for key, text in enumerate(texts, start=1))
    table = "CREATE TABLE rules (id NUMBER PRIMARY KEY, q VARCHAR2(200));\nTable created.\n"
    return table + "".join(rows) + "CREATE INDEX ri ON rules(q) INDEXTYPE IS CTXSYS.CTXRULE;\nIndex created.\n"


def matching(document: str, *keys: str) -> str:
    found = "\n".join(keys or ["[none]"])
    return f"SELECT id FROM rules WHERE MATCHES(q,'{document}') > 0;\n{found}\n"


def errors(*lines: str) -> str:
    found = "\n".join(lines or ["[none]"])
    return f"SELECT * FROM CTX_USER_INDEX_ERRORS;\n{found}\n"


def results(query: str, descriptor: str, *lines: str) -> str:
    found = "\n".join(lines)
    return f"EXEC CTX_QUERY.RESULT_SET('di','{query}','{descriptor}');\n{found}\n"


def table_of(*texts: str, parameters: str = "") -> str:
    """Returns the statements that make an indexed table of these texts, with the keys from 1 on."""
    rows = (ROW.format(key=key, text=text) for key, text in enumerate(texts, start=1))
    return "".join([TABLE, index(parameters), *rows, SYNC])


NEXT = frozenset({"WILDCARDS", "DEFINESCORE"})
NOT_SEARCHED = "E21: operator not in profile at 1"
SECTIONS = """\
EXEC CTX_DDL.CREATE_SECTION_GROUP('g','BASIC_SECTION_GROUP');
[ok]
EXEC CTX_DDL.ADD_ZONE_SECTION('g','p','P');
[ok]
EXEC CTX_DDL.ADD_ZONE_SECTION('g','q','Q');
[ok]
EXEC CTX_DDL.ADD_FIELD_SECTION('g','t','T');
[ok]
"""
STOPLIST = """\
EXEC CTX_DDL.CREATE_STOPLIST('sl');
[ok]
EXEC CTX_DDL.ADD_STOPWORD('sl','Is');
[ok]
"""


EXAMPLES = {
    "a character is skipped within words": """\
EXEC CTX_DDL.CREATE_PREFERENCE('lx','BASIC_LEXER');
[ok]
EXEC CTX_DDL.SET_ATTRIBUTE('lx','skipjoins','-');
[ok]
EXEC CTX_DOC.POLICY_TOKENS('lx','Web-site, 1,000.50!');
website|0|8
1,000.50|10|8
""",
    "a word character is no join": """\
EXEC CTX_DDL.CREATE_PREFERENCE('p','BASIC_LEXER');
[ok]
EXEC CTX_DDL.SET_ATTRIBUTE('p','printjoins','a');
E30: bad attribute or value
""",
    "stopwords find nothing": STOPLIST
    + table_of("jack grew big", "jack big", parameters="STOPLIST sl")
    + search("is")
    + search("jack", "1|1", "2|1")
    + search("is NOT jack")
    + search("jack NOT is", "1|1", "2|1")
    + search("jack AND is", "1|1", "2|1")
    + search("is=IS | jack-is", "1|1", "2|1")
    + search("is=big", "1|1", "2|1")
    + search("is * 2 > 0"),
    "words of an invisible field aren't in the main stream": SECTIONS
    + table_of("<T>alpha</T> <Q>one <P>beta</P></Q>", parameters="SECTION GROUP g")
    + search("alpha")
    + search("one", "1|1")
    + search("beta", "1|1")
    + search("q"),
    # + joins, - begins a word, # ends one; of a run the first `-` isn't before a letter, and the second `#` isn't behind one
    "characters join, begin and end words": """\
EXEC CTX_DDL.CREATE_PREFERENCE('lx','BASIC_LEXER');
[ok]
EXEC CTX_DDL.SET_ATTRIBUTE('lx','PrintJoins','+');
[ok]
EXEC CTX_DDL.SET_ATTRIBUTE('lx','startjoins','-');
[ok]
EXEC CTX_DDL.SET_ATTRIBUTE('lx','endjoins','#');
[ok]
EXEC CTX_DDL.SET_ATTRIBUTE('lx','numgroup','');
[ok]
EXEC CTX_DOC.POLICY_TOKENS('LX','C++ --v-1 c##d #é 1,5.2');
c++|0|3
-v|5|2
-1|7|2
c#|10|2
d|13|1
é|16|2
1|19|1
5.2|21|3
EXEC CTX_DDL.SET_ATTRIBUTE('lx','printjoins','');
[ok]
EXEC CTX_DOC.POLICY_TOKENS('lx','C++');
c|0|1
""",
    "accents and case count or don't": """\
EXEC CTX_DDL.CREATE_PREFERENCE('plain','basic_lexer');
[ok]
EXEC CTX_DDL.SET_ATTRIBUTE('plain','base_letter','Yes');
[ok]
EXEC CTX_DDL.CREATE_PREFERENCE('exact','BASIC_LEXER');
[ok]
EXEC CTX_DDL.SET_ATTRIBUTE('exact','mixed_case','yes');
[ok]
EXEC CTX_DOC.POLICY_TOKENS('plain','Café İ Straße');
cafe|0|5
i|6|2
strasse|9|7
EXEC CTX_DOC.POLICY_TOKENS('exact','Café İ Straße');
Café|0|5
İ|6|2
Straße|9|7
"""
    + TABLE
    + ROW.format(key=1, text="Café CAFE")
    + index("LEXER plain")
    + search("cafÉ", "1|2")
    + """\
EXEC CTX_DDL.SET_ATTRIBUTE('plain','base_letter','NO');
[ok]
"""
    + ROW.format(key=2, text="café")
    + SYNC
    + search("cafe", "1|2", "2|1"),
    # an opening tag that isn't closed runs to the end, and the tags of a section are paired each by its name
    "tags are paired by their names": """\
EXEC CTX_DDL.CREATE_SECTION_GROUP('g','BASIC_SECTION_GROUP');
[ok]
EXEC CTX_DDL.ADD_FIELD_SECTION('g','t','t',FALSE);
[ok]
EXEC CTX_DDL.ADD_FIELD_SECTION('g','T','u');
[ok]
EXEC CTX_DDL.ADD_FIELD_SECTION('g','v','v',TRUE);
[ok]
"""
    + TABLE
    + index("section\tgroup G")
    + ROW.format(key=1, text="</t>a<T>b</u>c</T>d<t>e")
    + ROW.format(key=2, text="<t>a<t>b</t>c</t>d< t>e<t f<t >g<v>h<t></t>")
    + SYNC
    + search("a", "1|1")
    + search("b")
    + search("c")
    + search("d", "1|1", "2|1")
    + search("e", "2|1")
    + search("f", "2|1")
    + search("g", "2|1")
    + search("h", "2|1")
    + search("t", "2|3"),
    "the first refusal in the order of their numbers": """\
EXEC CTX_DDL.CREATE_SECTION_GROUP('g','BASIC_SECTION_GROUP');
[ok]
EXEC CTX_DDL.ADD_ZONE_SECTION('g','z','Tag-1');
[ok]
EXEC CTX_DDL.ADD_FIELD_SECTION('nope','z','tag-1');
E11: unknown name nope
EXEC CTX_DDL.ADD_FIELD_SECTION('g','Z','TAG-1');
E12: z exists already
EXEC CTX_DDL.ADD_ZONE_SECTION('g','no name','TAG-1',1);
E12: tag-1 exists already
EXEC CTX_DDL.ADD_FIELD_SECTION('g','f','no tag',1);
E13: wrong type or number of values
EXEC CTX_DDL.ADD_FIELD_SECTION('g','f','no tag');
E30: bad attribute or value
EXEC CTX_DDL.ADD_SPECIAL_SECTION('g','Sentence');
[ok]
EXEC CTX_DDL.ADD_SPECIAL_SECTION('g','SENTENCE',1);
E12: sentence exists already
EXEC CTX_DDL.ADD_ZONE_SECTION('g','sentence','s');
E30: bad attribute or value
EXEC CTX_DDL.CREATE_SECTION_GROUP('n','NULL_SECTION_GROUP');
[ok]
EXEC CTX_DDL.ADD_SPECIAL_SECTION('n','PARAGRAPH');
[ok]
EXEC CTX_DDL.ADD_ZONE_SECTION('n','z','tag');
E30: bad attribute or value
EXEC CTX_DDL.CREATE_STOPLIST('sl','BASIC_STOPLIST');
[ok]
EXEC CTX_DDL.ADD_STOPWORD('sl','a|b');
[ok]
EXEC CTX_DDL.ADD_STOPWORD('sl','A|b');
[ok]
EXEC CTX_DDL.ADD_STOPWORD('sl','a|b');
E12: a\\|b exists already
EXEC CTX_DDL.ADD_STOPWORD('sl','');
E30: bad attribute or value
"""
    + TABLE
    + """\
CREATE INDEX di ON docs(body) INDEXTYPE IS CONTEXT PARAMETERS ('STOPLIST sk LEXER lx');
E11: unknown name sk
CREATE INDEX di ON docs(body) INDEXTYPE IS CONTEXT PARAMETERS ('STOPLIST sk LEXER lx TRANSACTIONAL');
E30: bad attribute or value
CREATE INDEX di ON docs(price) INDEXTYPE IS CONTEXT PARAMETERS ('STOPLIST');
E13: wrong type or number of values
CREATE INDEX di ON docs(body) INDEXTYPE IS CONTEXT PARAMETERS ('STOPLIST sl STOPLIST sl');
E30: bad attribute or value
CREATE INDEX di ON docs(body) INDEXTYPE IS CONTEXT PARAMETERS ('STOPLIST CTXSYS.DEFAULT_LEXER');
E30: bad attribute or value
CREATE INDEX di ON docs(body) INDEXTYPE IS CONTEXT PARAMETERS ('lexer ctxsys.default_lexer STOPLIST SL');
Index created.
EXEC CTX_DOC.POLICY_TOKENS('CTXSYS.DEFAULT_LEXER','a');
E30: bad attribute or value
""",
    # what is added isn't looked up in any table, and may be there already; the text is read before any limit is asked for
    "index sets and their sub-indexes": """\
EXEC CTX_DDL.CREATE_INDEX_SET('iset');
[ok]
EXEC CTX_DDL.CREATE_INDEX_SET('ISET','x');
E12: iset exists already
EXEC CTX_DDL.CREATE_INDEX_SET('other','x');
E13: wrong type or number of values
EXEC CTX_DDL.CREATE_INDEX_SET('my set');
E30: bad attribute or value
EXEC CTX_DDL.ADD_INDEX('iset','price');
[ok]
EXEC CTX_DDL.ADD_INDEX('Iset',' Price,price ,
id');
[ok]
EXEC CTX_DDL.ADD_INDEX('nope','a,b,c,d',1);
E11: unknown name nope
EXEC CTX_DDL.ADD_INDEX('iset','a,b,c,d',1);
E13: wrong type or number of values
EXEC CTX_DDL.ADD_INDEX('my set','price');
E30: bad attribute or value
EXEC CTX_DDL.ADD_INDEX('iset','price id');
E30: bad attribute or value
EXEC CTX_DDL.ADD_INDEX('iset','a,b,c,d,');
E30: bad attribute or value
EXEC CTX_DDL.ADD_INDEX('iset','');
E30: bad attribute or value
EXEC CTX_DDL.ADD_INDEX('iset','a,b,c,d');
E31: limit reached
"""
    + 14 * "EXEC CTX_DDL.ADD_INDEX('iset','price');\n[ok]\n"
    + """\
EXEC CTX_DDL.ADD_INDEX('iset','price');
E31: limit reached
EXEC CTX_DDL.ADD_INDEX('iset','1');
E30: bad attribute or value
""",
    # PARALLEL is looked at behind the form of PARAMETERS, and changes no reply
    "indexes in parallel": TABLE
    + """\
INSERT INTO docs VALUES (1,'b a',0);
1 row created.
INSERT INTO docs VALUES (2,'a',0);
1 row created.
CREATE INDEX di ON docs(body) INDEXTYPE IS CONTEXT PARALLEL 0;
E22: number out of range
CREATE INDEX di ON docs(body) INDEXTYPE IS CONTEXT PARALLEL 17;
E22: number out of range
CREATE INDEX di ON docs(body) INDEXTYPE IS CONTEXT PARAMETERS ('LEXER') PARALLEL 17;
E30: bad attribute or value
CREATE INDEX di ON docs(price) INDEXTYPE IS CONTEXT PARALLEL 17;
E13: wrong type or number of values
CREATE INDEX di ON docs(body) INDEXTYPE IS CONTEXT PARALLEL 9223372036854775808;
E22: number out of range
CREATE INDEX di ON docs(body) INDEXTYPE IS CONTEXT PARALLEL -1;
E10: statement not understood
CREATE INDEX di ON docs(body) INDEXTYPE IS CONTEXT PARALLEL 2 PARAMETERS ('');
E10: statement not understood
CREATE INDEX di ON docs(body) INDEXTYPE IS CTXSYS.CONTEXT PARAMETERS ('') PARALLEL 16;
Index created.
CREATE INDEX di ON docs(body) INDEXTYPE IS CONTEXT PARALLEL 17;
E12: di exists already
"""
    + search("a", "1|1", "2|1")
    + search("b", "1|1"),
    # names that stand in the statement, then the columns of the set; a catalogue and a CONTEXT index may be on one column
    "catalogues and their index sets": TABLE
    + """\
EXEC CTX_DDL.CREATE_INDEX_SET('iset');
[ok]
EXEC CTX_DDL.ADD_INDEX('iset','price,id');
[ok]
EXEC CTX_DDL.CREATE_INDEX_SET('other');
[ok]
EXEC CTX_DDL.ADD_INDEX('other','body,size');
[ok]
CREATE INDEX ci ON docs(body) INDEXTYPE IS CTXCAT PARAMETERS ('INDEX SET other LEXER nope');
E11: unknown name nope
CREATE INDEX ci ON docs(price) INDEXTYPE IS CTXCAT PARAMETERS ('INDEX SET other');
E11: unknown name size
CREATE INDEX ci ON docs(body) INDEXTYPE IS CTXSYS.CTXCAT PARAMETERS ('index set ISET');
Index created.
EXEC CTX_DDL.ADD_INDEX('iset','body');
[ok]
CREATE INDEX ci ON docs(price) INDEXTYPE IS CTXCAT PARAMETERS ('INDEX SET iset');
E12: ci exists already
CREATE INDEX cj ON docs(price) INDEXTYPE IS CTXCAT PARAMETERS ('INDEX SET iset');
E13: wrong type or number of values
CREATE INDEX cj ON docs(body) INDEXTYPE IS CTXCAT PARAMETERS ('INDEX SET iset');
E12: cj exists already
"""
    + index("")
    + ROW.format(key=1, text="red hat")
    + """\
SELECT * FROM ctx_user_pending;
di|1
EXEC CTX_DDL.SYNC_INDEX('nope',1);
E11: unknown name nope
EXEC CTX_DDL.SYNC_INDEX('ci',1);
E27: no index of that kind
"""
    + SYNC
    + search("hat", "1|1")
    + """\
DROP INDEX ci;
Index dropped.
CREATE INDEX ci ON docs(body) INDEXTYPE IS CTXCAT PARAMETERS ('INDEX SET iset');
E30: bad attribute or value
CREATE INDEX ci ON docs(body) INDEXTYPE IS CTXCAT PARAMETERS ('INDEX SET nope SECTION GROUP nope');
E30: bad attribute or value
CREATE INDEX ci ON docs(body) INDEXTYPE IS CTXCAT;
Index created.
DROP INDEX di;
Index dropped.
"""
    + search("hat", "E27: no index of that kind"),
    "a search in a catalogue": items(("red car", 9), ("red blue", 3), ("Red hat", 1), ("red hat", 10))
    + search_items("red - blue", "'price BETWEEN 1 AND 9 ORDER BY price'", "3", "1")
    + "DELETE FROM items WHERE id = 3;\n1 row deleted.\n"
    + search_items("red - blue", "'price BETWEEN 1 AND 9 ORDER BY price'", "1")
    + search_items("red-blue", "NULL", "2")
    + search_items("red-blue", "'id = 1'", "E33: column id in no sub-index")
    + search_items("*ed", "NULL", "E20: query syntax at 1")
    + search_items("h*t", "NULL", "4")
    + "UPDATE items SET title='red' WHERE id = 4;\n1 row updated.\n"
    + search_items("h*t", "NULL")
    + "DROP TABLE items;\nTable dropped.\n",
    "CATSEARCH of a column without a catalogue": TABLE
    + index("")
    + "SELECT id FROM docs WHERE CATSEARCH(body,'a',NULL) > 0;\nE27: no index of that kind\n",
    # AND binds before `|`, and with `-` goes from left to right; a text between quotes has no signs
    "query texts of catalogues": items(("red hat", 1), ("hat red car", 2), ("blue car", 3), ("a-b *", 4))
    + search_items("red hat", "NULL", "1", "2")
    + search_items('"red hat"', "NULL", "1")
    + search_items("car - red | hat - car", "NULL", "1", "3")
    + search_items("red - hat car", "NULL")
    + search_items("red - (hat - car)", "NULL", "2")
    + search_items("c*r - r*d", "NULL", "3")
    + search_items("a-b", "NULL", "4")
    + search_items('"b *"', "NULL", "4")
    + search_items("%", "NULL")
    + search_items('""', "NULL")
    + search_items('red ""', "NULL", "1", "2")
    + search_items("(-) red", "NULL", "1", "2")
    + search_items("- red", "NULL", "E20: query syntax at 1")
    + search_items("red - - hat", "NULL", "E20: query syntax at 7")
    + search_items('red "hat', "NULL", "E20: query syntax at 5")
    + search_items("red |", "NULL", "E20: query syntax at 6")
    + search_items("a" * 4001, "NULL", "E26: query too large"),
    # of two columns, of which the first one goes down; ties come by rising keys all the same
    "structured queries": items(("red", 5), ("red", 7), ("red", 5), ("red", -1))
    + search_items("red", "''", "1", "2", "3", "4")
    + search_items("red", "'order by Price desc -- the dearest first'", "2", "1", "3", "4")
    + search_items("red", "'price > -2 AND price IN (5, -1) ORDER BY price ASC, price DESC'", "4", "1", "3")
    + search_items("red", "'price = -9223372036854775808'")
    + search_items("red", "'price = -9223372036854775809'", "E22: number out of range at 10")
    + search_items("red", "'price < 9223372036854775808'", "E22: number out of range at 9")
    + search_items("red", "'price ='", "E20: query syntax at 8")
    + search_items("red", "'price = ''1'''", "E13: wrong type or number of values")
    + search_items("red", "'price = ''1'' AND id = 1'", "E13: wrong type or number of values")
    + search_items("red", "'id = ''1'' AND price = ''1'''", "E33: column id in no sub-index")
    + search_items("red", "'price = 1 ORDER BY nope'", "E33: column nope in no sub-index")
    + search_items("red |", "'price ='", "E20: query syntax at 6"),
    "a catalogue by its preferences": STOPLIST
    + items(("jack is big", 1), ("jack big", 2), parameters="STOPLIST sl")
    + search_items("is", "NULL")
    + search_items("is - jack", "NULL")
    + search_items("jack - is", "NULL", "1", "2")
    + search_items('"jack is big"', "'price > 0 ORDER BY price DESC'", "E33: column price in no sub-index")
    + search_items('"jack is big"', "''", "1")
    + search_items('"is jack"', "NULL", "1", "2"),
    "scores are at most 100, and are weighed": table_of(" ".join(["quick"] * 101), "quick")
    + search("quick", "1|100", "2|1")
    + search("quick*0.1", "1|10", "2|1")
    + search("quick*1.5", "1|100", "2|2")
    + search("quick*0", "E22: number out of range at 7"),
    "operators and their scores": table_of("quick fox quick")
    + search("fox MINUS quick")
    + search("quick - fox", "1|1")
    + search("quick AND fox", "1|1")
    + search("quick | fox", "1|2")
    + search("quick NOT fox")
    + search("quick NOT slow", "1|2")
    + search("quick = fox", "1|3")
    + search("quick = fox - fox", "1|2")
    + search("fox OR quick AND slow", "1|1")
    + search("(fox OR quick) AND slow")
    + search("quick > 1", "1|2")
    + search("quick > 2")
    + search("quick > 1 AND fox", "1|1")
    + search("quick*10*10>99", "1|100"),
    "phrases": table_of("web site")
    + search("web\\-site", "1|1")
    + search("{web-site}", "1|1")
    + search("web AND SITE", "1|1")
    + search("shop = web site", "1|1")
    + search("site web"),
    "a stopword takes any word": STOPLIST
    + table_of("jack grew big", "jack big", "jack is grown big", parameters="STOPLIST sl")
    + search("jack is big", "1|1")
    + search("is jack is = Is big is", "1|1")
    + search("jack is is big", "3|1"),
    "a phrase within a sentence": """\
EXEC CTX_DDL.CREATE_SECTION_GROUP('g','NULL_SECTION_GROUP');
[ok]
EXEC CTX_DDL.ADD_SPECIAL_SECTION('g','SENTENCE');
[ok]
"""
    + table_of("a. b", "a b.", parameters="SECTION GROUP g")
    + search("(a AND b) WITHIN SENTENCE", "2|1")
    + search("(a AND b) WITHIN PARAGRAPH", "E23: unknown section paragraph"),
    "sections": SECTIONS
    + table_of("<T>alpha</T> <Q>one <P>beta</P></Q>", parameters="SECTION GROUP g")
    + search("alpha")
    + search("alpha WITHIN t", "1|1")
    + search("(beta WITHIN p) WITHIN q", "1|1")
    + search("(one WITHIN p) WITHIN q")
    + search("alpha WITHIN z", "E23: unknown section z")
    + search("(alpha WITHIN t) WITHIN q", "E24: field t inside WITHIN")
    + search("(alpha WITHIN t) WITHIN z", "E24: field t inside WITHIN")
    + search("(alpha WITHIN z) WITHIN t", "E23: unknown section z")
    + search("{a-b} = c AND alpha WITHIN z", "E29: not one word at 1"),
    "nearness": table_of("a b", "b x a. c")
    + search("NEAR((a,b),0)")
    + search("NEAR((a,b),1)", "1|100")
    + search("NEAR((b,a),1,TRUE)")
    + search("NEAR((b,a),2,TRUE)", "2|100")
    + search("a ; b", "1|100", "2|100")
    + search("(a OR c);b", "1|100", "2|100")
    + search("NEAR((a,a),0)", "1|100", "2|100")
    + search("NEAR((a,a),100,TRUE)")
    + search("NEAR((x a, b x),2)", "2|100")
    + search("NEAR((x a, b x),1)")
    + search("NEAR((b, ., a),1)", "1|100")
    + search("NEAR((b, .),0)", "1|1", "2|1")
    + search("NEAR((a,b),101)", "E22: number out of range at 12"),
    "several words that are one": table_of("Quick fox quick")
    + search("({quick})", "1|2")
    + search("quick = QUICK = {Quick}", "1|2")
    + search("quick .", "1|2")
    + search(". OR quick", "1|2"),
    "faults of query texts": table_of()
    + search("fuzzy(x)", "E21: operator not in profile at 1")
    + search("a,b", "E21: operator not in profile at 2")
    + search("(a", "E20: query syntax at 3")
    + search("a)", "E20: query syntax at 2")
    + search("", "E20: query syntax at 1")
    + search("a" * 4001, "E26: query too large")
    + search("a" * 4000)
    + search("NEAR((a,b),101)", "E22: number out of range at 12")
    + search("BT(a,0)", "E22: number out of range at 6")
    + search("DEFINESCORE(quick, COMPLETION)", "E21: operator not in profile at 20")
    + search("é > 101", "E22: number out of range at 6"),
    "a word of several tokens isn't one of several words": table_of("web site")
    + search("web\\-site = shop", "E29: not one word at 1")
    + search("shop = {web-site} AND {a-b} = c", "E29: not one word at 8")
    + search("x AND (shop OR a = .)", "E29: not one word at 20"),
    "a catalogue": """\
EXEC CTX_DDL.CREATE_SECTION_GROUP('g','BASIC_SECTION_GROUP');
[ok]
EXEC CTX_DDL.ADD_ZONE_SECTION('g','name','NAME');
[ok]
EXEC CTX_DDL.ADD_SPECIAL_SECTION('g','SENTENCE');
[ok]
"""
    + table_of(
        *(
            f"<NAME>Lamp {i}</NAME> Steel lamp with {'blue' if i % 2 else 'red'} shade. Runs on 12 volts."
            for i in range(1, 301)
        ),
        parameters="SECTION GROUP g",
    )
    + count("red", 150)
    + count("red AND 12", 150)
    + count("(red AND 12) WITHIN SENTENCE", 1)
    + count("lamp WITHIN name", 300)
    + count("lamp > 1", 300)
    + "UPDATE docs SET body='green lamp' WHERE id BETWEEN 1 AND 100;\n100 rows updated.\n"
    + count("red", 100)
    + count("green", 0)
    + SYNC
    + count("green", 100),
    "the order of a SELECT": TABLE
    + """\
INSERT INTO docs VALUES (1,'red',5);
1 row created.
INSERT INTO docs VALUES (2,'red red',5);
1 row created.
INSERT INTO docs VALUES (3,'red',7);
1 row created.
CREATE INDEX di ON docs(body) INDEXTYPE IS CONTEXT;
Index created.
SELECT id FROM docs ORDER BY price DESC;
3
1
2
SELECT id FROM docs WHERE CONTAINS(body,'red',1) > 0 ORDER BY SCORE(1) DESC, price DESC;
2
3
1
SELECT id FROM docs ORDER BY SCORE(1);
E13: wrong type or number of values
""",
    "terms that are reached from each other": """\
EXEC CTX_THES.CREATE_THESAURUS('th');
[ok]
"""
    + relate("dog", "BT", "animal")
    + relate("animal", "BT", "dog")
    + relate("ANIMAL", "NT", " Dog", "E12: animal exists already")
    + table_of("dog", "animal", "cat")
    + search("BT(dog,5,th)", "1|1", "2|1")
    + search("BT(dog,1,nope)", "E25: unknown thesaurus nope")
    + search("SYN(dog)", "E25: unknown thesaurus default")
    + search("PT(dog,th) | cat", "1|1", "3|1")
    + relate("dog", "USE", "cat")
    + relate("dog", "PT", "animal", "E12: dog exists already")
    + search("PT(dog,th)", "3|1")
    + search("SYN({},th)"),
    "1024 terms at most": """\
EXEC CTX_THES.CREATE_THESAURUS('th');
[ok]
"""
    + "".join(relate("top", "NT", f"m{i}") for i in range(1, 33))
    + "".join(relate(f"k{i}x{j}", "BT", f"m{i}") for i in range(1, 32) for j in range(1, 33) if (i, j) != (7, 7))
    + "".join(relate("hub", "SYN", f"t{i}") for i in range(1, 1025))
    + table_of("m3", "top top", "k31x32")
    + search("NT(top,th)", "1|1", "2|2")
    + search("NT(top,2,th)", "1|1", "2|2", "3|1")
    + relate("k7x8", "BT", "m9")
    + search("NT(top,2,th)", "1|1", "2|2", "3|1")
    + relate("k7x7", "BT", "m7")
    + search("NT(top,1,th)", "1|1", "2|2")
    + search("NT(top,2,th)", "E28: too many expanded terms")
    + search("BT(k31x32,99,th)", "2|2", "3|1")
    + search("SYN(hub,th)", "E28: too many expanded terms")
    + search("top = {a-b} | SYN(t9,th)", "E29: not one word at 7")
    + search("SYN(t9,th) | top = {a-b}", "E28: too many expanded terms")
    + search("SYN(top,th)", "2|2"),
    "10,000 pairs in a thesaurus at most": """\
EXEC CTX_THES.CREATE_THESAURUS('th');
[ok]
EXEC CTX_THES.CREATE_THESAURUS('other',FALSE);
[ok]
"""
    + relate("a", "PT", "b")
    + "".join(relate("a", "BT", f"b{i}") for i in range(2, 10_001))
    + relate("b", "SYN", "a", "E31: limit reached")
    + relate("A", "USE", "c", "E12: a exists already")
    + relate("b7", "NT", "a", "E12: b7 exists already")
    + relate("b7", "XT", "a", "E30: bad attribute or value")
    + relate("c", "PT", "a", "E31: limit reached")
    + relate("b", "SYN", "a", thesaurus="other")
    + table_of("a", "b")
    + search("PT(a,th)", "2|1")
    + search("SYN(a,other)", "1|1", "2|1"),
}

RULES = {
    "rules that hold of a document": rules("a OR b", "a NOT b", "(a")
    + errors("ri|3|E20: query syntax at 3")
    + matching("b c", "1")
    + matching("a c", "1", "2")
    + "UPDATE rules SET q='zz' WHERE id = 1;\n1 row updated.\n"
    + matching("a c", "2")
    + matching("zz")
    + "SELECT * FROM CTX_USER_PENDING;\nri|1\n"
    + "EXEC CTX_DDL.SYNC_INDEX('ri');\n[ok]\n"
    + matching("zz", "1")
    + "DELETE FROM rules WHERE id = 1;\n1 row deleted.\n"
    + matching("zz")
    + "DROP INDEX ri;\nIndex dropped.\n",
    # a rule keeps the terms that it got when it was taken, and one that was faulty stays so until it is updated
    "a rule keeps the terms that its thesaurus had": """\
EXEC CTX_THES.CREATE_THESAURUS('th');
[ok]
"""
    + relate("dog", "SYN", "hound")
    + rules("SYN(dog,th)", "SYN(dog,late)", "x AND%")
    + errors("ri|2|E25: unknown thesaurus late")
    + matching("hound", "1")
    + relate("dog", "SYN", "cur")
    + "EXEC CTX_THES.CREATE_THESAURUS('late');\n[ok]\n"
    + "EXEC CTX_DDL.SYNC_INDEX('ri');\n[ok]\n"
    + errors("ri|2|E25: unknown thesaurus late")
    + matching("cur dog", "1")
    + matching("cur")
    + "UPDATE rules SET q=q2 WHERE id = 1;\nE10: statement not understood\n"
    + "UPDATE rules SET q='SYN(dog,th)' WHERE id IN (1,2);\n2 rows updated.\n"
    + errors()
    + matching("cur")
    + "EXEC CTX_DDL.SYNC_INDEX('ri');\n[ok]\n"
    + matching("cur", "1", "2")
    + matching("x and", "3"),
    "a result set": TABLE
    + """\
INSERT INTO docs VALUES (1,'red',5);
1 row created.
INSERT INTO docs VALUES (2,'red red',5);
1 row created.
INSERT INTO docs VALUES (3,'red',7);
1 row created.
"""
    + index("")
    + results("red", "count / hits 1 to 2 order by score desc / group price", "count=3", "hit|2|2", "hit|1|1", "group|5|2", "group|7|1")
    + results("red", "hits 2 to 9", "hit|2|2", "hit|3|1")
    + results("red", "HITS 1 TO 2 ORDER BY Price DESC, score", "hit|3|1", "hit|1|1")
    + results("blue", "count", "count=0")
    + results("blue", "hits 1 to 2/group price", "[none]")
    + results("red", "count, count", "E30: bad attribute or value")
    + results("red", "hits 2 to 1", "E22: number out of range")
    + results("red", "group score", "E11: unknown name score")
    + results("red", "group body", "E13: wrong type or number of values")
    + results("red AND", "count", "E20: query syntax at 8"),
}

UNBUILT = {
    "what isn't searched yet is refused behind the faults of the text, and before those of its reduction": table_of("quick fox quick")
    + search("qu%", NOT_SEARCHED)
    + search("DEFINESCORE(quick, 5)", NOT_SEARCHED)
    + search("fox AND NEAR((quick, f_x))", NOT_SEARCHED)
    + search("qu% = {a-b}", NOT_SEARCHED)
    + search("qu% WITHIN nope", NOT_SEARCHED)
    + search("qu% )", "E20: query syntax at 5")
    + search("quick fox | a={a-b}", "E29: not one word at 15")
    + search("quick NOT a={a-b}", "E29: not one word at 13")
    + search("quick WITHIN nope", "E23: unknown section nope"),
}

LATER = {
    "wildcards": """\
EXEC CTX_DDL.CREATE_PREFERENCE('lx','BASIC_LEXER');
[ok]
EXEC CTX_DDL.SET_ATTRIBUTE('lx','base_letter','YES');
[ok]
EXEC CTX_DDL.SET_ATTRIBUTE('lx','skipjoins','-');
[ok]
"""
    + table_of("CAFÉ café", parameters="LEXER lx")
    + search("caf%", "1|2")
    + search("%", "1|2")
    + search("C\\-A\\-f_", "1|2")
    + search("caf__")
    + search("%f%", "1|2")
    + "DELETE FROM docs WHERE id = 1;\n1 row deleted.\n"
    + search("%"),
    "a score by a sum": table_of("quick fox quick")
    + search("DEFINESCORE(quick, OCCURRENCE * 10 + 5)", "1|25")
    + search("DEFINESCORE(quick, DISCRETE * 10 + 5)", "1|100")
    + search("DEFINESCORE(quick, DISCRETE)", "1|100")
    + search("DEFINESCORE(quick, 0 - 5)", "1|1")
    + search("DEFINESCORE(slow, 5)")
    + search("DEFINESCORE(quick | fox | quick, OCCURRENCE)", "1|3")
    + search("DEFINESCORE(quick, 1000 - 1000 - 1)", "1|1")
    + search("DEFINESCORE(fox, 1000*1000*1000*1000*1000*1000*1000*1000*1000)", "1|100"),
}


def differing(name: str, example: str, built: frozenset[str]) -> int:
    """Says which statements of an example are answered otherwise, and returns how many."""
    statements = list(STATEMENT.finditer(example))
    ends = [*(statement.start() for statement in statements[1:]), len(example)]
    answered = replies("".join(statement[0] for statement in statements).encode(), built)
    wrong = 0
    for statement, end, reply in zip(statements, ends, answered):
        wanted = example[statement.end() : end]
        for short, full in SHORT.items():
            wanted = wanted.replace(short, full)
        if reply != wanted:
            wrong += 1
            print(f"{name}: {statement[0]}is answered {reply!r}, and not {wanted!r}")
    return wrong


def main() -> int:
    kinds = [(EXAMPLES, BUILT), (RULES, BUILT), (LATER, BUILT | NEXT), (UNBUILT, BUILT - NEXT)]
    cases = [(name, example, built) for examples, built in kinds for name, example in examples.items()]
    total = sum(differing(*case) for case in cases)
    print(f"{len(cases)} examples, {total} replies that differ")
    return 1 if total else 0


if __name__ == "__main__":
    sys.exit(main())
