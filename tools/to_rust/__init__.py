"""The translation of the proved Rattle sources into ordinary Rust; `tools/to-rust` runs it.

`tree` has the lexer and the tree of tokens, `contracts`, `laws`, `memory`, `types`, `idiom`, `exports`, `layer` and
`uncalled` the rules, each with its reason, and `translation` their order. `effects` refuses to erase what does something, and `calls` lets no
call through of which nothing says what it does where memory lacks.
"""
