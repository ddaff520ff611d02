"""What `tools/edits` does: it tries several edits of a crate in one check, and says which goal refuses each.

toolchain  the toolchain's own command as a library: crates, checks over kept work
functions  the functions of a source file, and which of them an edit turns
told       what a check says of each function: whether it is proved, and by which goals it isn't
rounds     edits that turn different functions, tried together
table      tests/edits.tsv: what the refusals of each crate rest on, and what it was when it landed
"""
