"""A model of the bus in Python, written from its rules alone and sharing nothing with the crates.

`names`, `messages`, `rules`, `programs` and `bus` say what is right; `text` reads lists of events; `build`,
`random_messages`, `random_rules`, `random_programs` and `lists` make random lists; `compare` feeds them to a program;
`outside` and its `assembler` test the model itself.
"""
