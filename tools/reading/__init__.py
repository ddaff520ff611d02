"""What the tools that read the repository's sources have in common.

tree      all files of the repository as texts, by their paths
antt      files of specs/ and proofs/: their declarations
rattle    files of src/: their types and functions
listing   the functions, lemmas and definitions of product crates
"""
