-- The words of a text: each with the place of its first byte and its length.
EXEC CTX_DOC.POLICY_TOKENS('some text');

-- Words are letters and digits; a point or a comma between two digits joins them.
EXECUTE ctx_doc.policy_tokens('Web-site, 1,000.50!');

-- Two quotes stand for one, and a text without a word has no line.
EXEC CTX_DOC.POLICY_TOKENS('It''s a lamp.');
EXEC CTX_DOC.POLICY_TOKENS('...');

-- What is no statement is refused, and the script goes on.
SELEC;
EXEC CTX_DOC.POLICY_TOKENS('the end');
