-- preferences, stoplists and section groups that are defined, step by step
EXEC CTX_DDL.CREATE_PREFERENCE('lx', 'BASIC_LEXER');
EXEC CTX_DDL.CREATE_PREFERENCE('LX', 'basic_lexer');
EXEC CTX_DDL.SET_ATTRIBUTE('lx', 'skipjoins', '-');
EXEC CTX_DDL.SET_ATTRIBUTE('lx', 'skipjoins', 'a');
EXEC CTX_DDL.SET_ATTRIBUTE('lx', 'skipjoins');
EXEC CTX_DDL.CREATE_STOPLIST('sl');
EXEC CTX_DDL.ADD_STOPWORD('sl', 'the');
EXEC CTX_DDL.ADD_STOPWORD('sl', 'the', 'a');
EXEC CTX_DDL.ADD_STOPWORD('lx', 'a');
EXEC CTX_DDL.CREATE_SECTION_GROUP('g', 'BASIC_SECTION_GROUP');
EXEC CTX_DDL.ADD_ZONE_SECTION('g', 'title', 'H1');
EXEC CTX_DDL.ADD_FIELD_SECTION('g', 'title', 'h1', TRUE);
EXEC CTX_DDL.ADD_FIELD_SECTION('g', 'author', 'h1', TRUE);
EXEC CTX_DDL.ADD_FIELD_SECTION('g', 'author', 'by', TRUE);
EXEC CTX_DDL.ADD_SPECIAL_SECTION('g', 'SENTENCE');
EXEC CTX_DDL.ADD_SPECIAL_SECTION('g', 'sentence');
