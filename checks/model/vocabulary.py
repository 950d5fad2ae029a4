"""What random scripts are made of: names, words, signs, and texts that are no statements."""

from __future__ import annotations

from procedures import STOPWORD_SIZE
from queries import FUNCTIONS, OPERATORS, REFUSED_FUNCTIONS, REFUSED_OPERATOR
from texts import WHITE_SPACE

# names and numbers that statements choose from
TABLES = ["docs", "items", "t", "a" * 30, "docs$2#_"]
INDEXES = ["di", "ti", "docs", "b" * 30, "i#1"]
COLUMNS = ["id", "body", "price", "title", "note", "c" * 30, "n_2"]
RULE_COLUMN = "rule"  # of a table whose rows are rules
PREFERENCES = ["lx", "ly", "docs", "p" * 30, "p#1"]
STOPLISTS = ["sl", "lx", "s" * 30]
GROUPS = ["g", "h", "lx", "g" * 30]
INDEX_SETS = ["iset", "lx", "docs", "i" * 30]
SECTIONS = ["p", "q", "t", "z_1", "docs", "s" * 30]
THESAURI = ["default", "th", "lx", "t" * 30]
TAGS = ["p", "q", "t", "k", "h1", "a-b", "_x", "-", "1", "x" * 30]
STRANGE_NAMES = [
    "nope", "x" * 31, "order", "key", "select", "Score", "ctx_user_pending", "ctx_user_index_errors", "local", "1a", "_a", "é",
]
NUMBERS = ["0", "1", "2", "3", "007", str(2**63 - 1), "100", "101"]
BORDERS = [str(2**63 - 1), str(2**63), str(2**63 + 1)]
BEYOND = [str(2**63 + 1), "9" * 20, "1" * 5000, "18446744073709551617"]
# words that fold, compose, or are cut in ways of their own
WORDS = [
    "quick", "fox", "Straße", "GROẞE", "ΟΔΥΣΣΕΥΣ", "οδυσσευς", "İstanbul", "ısı", "ſqe", "café", "cafe\u0301", "한국어", "1,000.50", "12",
    "日本語", "हिन्दी", "ᾳ", "α\u0345\u0301", "\u0345", "ﬃ", "a\u0323\u0302", "\u1112\u1161\u11ab", "١٢٣", "\u212b", "\u01c5", "a" * 254 + "é", "ü" * 128,
    "x" * 300, "\u0300\u0301", "ᏣᎳᎩ", "\u1e9b\u0323", "²", "Ⅻ", "NEAR", "accum", "3.14", "1,a",
    "web-site", "l'été", "c++", "#tag",
]
QUERY_WORDS = [*OPERATORS, *FUNCTIONS, REFUSED_OPERATOR, *REFUSED_FUNCTIONS]
NO_UTF_8 = [b"\xff", b"\xc3", b"\xed\xa0\x80", b"\xf4\x90\x80\x80"]
# characters that a set may have, some of which look like tags, white space, or parts of words
JOINS = [*"-_+#@&'/<>.,!?:;|\\*·…€😀", "\u200b", "\u20dd", "\u00ad", "\x1c", "\ue000", "\uffff", "\0"]
NO_JOINS = ["a", "é", "1", "²", "٣", "語", "\u0301", "\u0903", " ", "\t", "\n", "\x85", "\xa0", "\u3000", "\u2028"]
SENTENCE_ENDS = [". ", "! ", "? ", ".\n", ".\n\n", "!\n ", "?\r\n", ".\n\u3000", ".\n.", "..", "."]
# letters that are no ASCII letters, though one of their cases is, or looks like one
LOOKS_LIKE = str.maketrans("sSkKiIoO", "\u017f\u017f\u212a\u212a\u0131\u0130\u03bf\u039f")
STOPWORDS = ["a|b", "back\\slash", "new\nline", "it's", "web-site", " ", "-", "\u0301", "y" * STOPWORD_SIZE]
# terms of thesauri that are keyed in ways of their own, have no word, or are at the border of their size; and texts that are no terms
TERMS = [
    "a|b", "back\\slash", "it's", "web-site", "l'été", "+", "\u0301", "İ", "ß ſ", "y" * 255, " " + "é" * 127 + "y\n", "\u0149" * 127,
]
NO_TERMS = ["", " ", "\u3000\n", "y" * 256, "é" * 128, "y" * 254 + " é"]
# forms of tags of a name: such as begin or end a section, and such as are none
WHOLE_TAGS = ["<{}>", "<{}>", "</{}>", "<<{}>", "<{}>>"]
BROKEN_TAGS = [
    "< {}>", "<{}", "</ {}>", "<{} >", "< /{}>", "<//{}>", "<{}/>", "{}>", "<{}x>", "<{}'>", "<{}\u0301>", "<\u212a>", "</>", "<>",
]
# what a text of PARAMETERS may not have, or not twice, in several words and in one
PARAMETER_LISTS = ["LEXER lx", "STOPLIST CTXSYS.EMPTY_STOPLIST", "SECTION GROUP g", "INDEX SET s", "TRANSACTIONAL", "SYNC (ON COMMIT)"]
PARAMETER_WORDS = [
    "LEXER", "SECTION", "GROUP", "nope", "CTXSYS.DEFAULT_LEXER", "CTXSYS.NULL_SECTION_GROUP", "CTXSYS . DEFAULT_LEXER", ",", "'lx'", "é",
]
# lists of columns that are none: what stands between commas, and what stands in place of one
NO_COLUMNS = ["", " ", "x" * 31, "1a", "price title", "price,", "é", "'id'", "price.id", "\u200b", "\x1c", "id;price", "(id)"]
# arguments that are no names, or aren't spelt so
NO_NAMES = ["''", "'no name'", "' di'", "'lx '", "1", "TRUE", "'é'", "'1a'", "'a-b'", "'CTXSYS.DEFAULT_LEXER'", "'" + "x" * 31 + "'"]
BETWEEN_WORDS = [
    " ", " ", " ", " ", ", ", ". ", ".", "-", "|", "\\", "\n", "\r\n", "'", "''", "_", "--", ";", "\u3000", "\u200b", "\ue000", "\U0010fffd", "\uffff",
]
BLANKS = [*[" ", "\n", "\r\n", " -- it's; a (comment)\n", "--\n"] * 6, *WHITE_SPACE]
ENDS = [";\n"] * 90 + ["; \t\r\n", ";\r\n", ";\n\n", " ;\n-- a comment\n", ";", "; -- no end\n", ""]
# texts that are no statements, or not yet
NO_STATEMENTS = [
    "SELECT id FROM docs ORDER BY id",
    "SELECT * FROM docs WHERE CONTAINS(body, 'quick') > 0 ORDER BY id DESC",
    "SELECT id FROM docs WHERE CATSEARCH(body, 'quick') > 0",
    "SELECT id FROM docs WHERE CATSEARCH(body, 'quick', NULL) > 1",
    "SELECT id FROM docs WHERE CATSEARCH(body, 'quick', NULL) >= 0",
    "SELECT id FROM docs WHERE CATSEARCH(body, 'quick', price < 10) > 0",
    "SELECT id FROM docs WHERE CATSEARCH(body, NULL, NULL) > 0",
    "SELECT id FROM docs WHERE CATSEARCH(body, 'quick', NULL) > 0 ORDER BY id",
    "SELECT id FROM docs WHERE CATSEARCH(body, 'a', NULL) > 0 AND CONTAINS(body, 'b') > 0",
    "SELECT * FROM ctx_user_pending WHERE CATSEARCH(body, 'quick', NULL) > 0",
    "SELECT id FROM docs WHERE MATCHES(body, 'quick') > 1",
    "SELECT id FROM docs WHERE MATCHES(body, 'quick', NULL) > 0",
    "SELECT id FROM docs WHERE MATCHES(body, 'quick', 1) > 0",
    "SELECT id FROM docs WHERE MATCHES(body, 'quick') >= 0",
    "SELECT id FROM docs WHERE MATCHES(body, NULL) > 0",
    "SELECT id FROM docs WHERE MATCHES(body, 'a') > 0 AND MATCHES(body, 'b') > 0",
    "SELECT * FROM ctx_user_index_errors WHERE MATCHES(body, 'a') > 0 AND CONTAINS(body, 'b') > 0",
    "UPDATE ctx_user_index_errors SET id = 1",
    "SELECT MATCHES(1) FROM docs WHERE MATCHES(body, 'quick') > 0",
    "SELECT id FROM docs WHERE CONTAINS(body, 'a') > 0 AND CONTAINS(body, 'b') > 0",
    "SELECT nope FROM ctx_user_index_errors WHERE id = 1",
    "SELECT id FROM docs WHERE CATSEARCH(body, 'quick', 'price < 10 ORDER BY price') > 0 AND id < 5",
    "CREATE INDEX ri ON docs(body) INDEXTYPE IS CTXSYS.CTXRULE PARALLEL",
    "CREATE INDEX ci ON docs(body) INDEXTYPE IS CTXSYS.CTXCAT PARALLEL -2",
    "CREATE INDEX ci ON docs(body) INDEXTYPE IS CTXSYS.CTXCAT PARAMETERS (INDEX SET iset)",
    "CREATE INDEX di ON docs(body) INDEXTYPE IS CTXSYS.CONTEXT PARALLEL '2'",
    "CREATE INDEX di ON docs(body) INDEXTYPE IS CTXSYS.CONTEXT PARALLEL (2)",
    "CREATE INDEX di ON docs(body) INDEXTYPE IS CTXSYS.CONTEXT PARALLEL 2 PARAMETERS ('')",
    "CREATE INDEX di ON docs(body) INDEXTYPE IS CTXSYS.CONTEXT PARAMETERS ''",
    "CREATE INDEX di ON docs(body) INDEXTYPE IS CTXSYS.CONTEXT PARAMETERS (LEXER lx)",
    "EXEC CTX_DDL.OPTIMIZE_INDEX('di',FULL)",
    "EXEC CTX_DDL.OPTIMISE_INDEX('di','FULL')",
    "EXEC CTX_DOC.OPTIMIZE_INDEX('di','FULL')",
    "EXEC CTX_DDL.CREATE_INDEX_SET('s')",
    "EXEC CTX_DDL.ADD_ATTR_SECTION('g','s','t')",
    "EXEC CTX_DDL.DROP_PREFERENCE('lx')",
    "EXEC CTX_DOC.CREATE_PREFERENCE('lx','BASIC_LEXER')",
    "EXEC CTX_DDL.SET_ATTRIBUTE('lx',base_letter,'YES')",
    "EXEC CTX_QUERY.RESULT_SET('di','quick',count)",
    "EXEC CTX_QUERY.RESULT_SETS('di','quick','count')",
    "EXEC CTX_DOC.RESULT_SET('di','quick','count')",
    "EXEC CTX_THES.CREATE_THESAURUS('th')",
    "EXEC nope.nope()",
    "ROLLBACK",
    "SELEC",
    "%",
    "'",
    "COMMIT COMMIT",
    "COMMIT\x1c",
    "COMMIT\u200b",
]
# lexemes that are put into a statement at random places
STRAY = ["MATCHES", "(", ")", ",", ".", "*", "=", "<", "<=", ">", ">=", "-", "0", "'x'", "AND", "FROM", "WHERE", "NULL", "TRUE", "id", "CTXSYS", "%", "\\"]
# lexemes that are put into a descriptor at random places, and descriptors that are none
STRAY_IN_DESCRIPTORS = ["/", ",", "0", "1", "to", "by", "order", "score", "asc", "desc", "hits", "group", "count", "id", "*", "-1", "(", "'", "é", "x" * 31, "1to"]
NO_DESCRIPTORS = [
    "", " ", "/", "count,count", "count /", "/ count", "counts", "hits", "hits 1", "hits 1 to", "hits 1 2", "hits -1 to 2", "hits 1 to 2 by price", "hits1 to 2",
    "hits 1 to2", "hits 1 to 2 order price", "hits 1 to 2 order by", "hits 1 to 2 order by price,", "hits 1 to 2 order by price asc desc", "group", "group price, id",
    "group price desc", "group score desc", "group 1", "count group price", "hits 1.0 to 2", "hits 1 to 2;", "count\x1c", "\u200bcount", "group \u017fcore", "count" + " / count" * 8,
]
