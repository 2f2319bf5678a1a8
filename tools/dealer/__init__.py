"""What tools/casetext.py is made of, leaves first.

floats      a float and its bits
tree        the tree of a rule, the columns of a table, the names, numbers and limits
layout      bytes of a rule and a table, written
words       a tree as text, in SQL, and byte by byte
rows        one row: the entry of a rule and the branch that decides it, apart from the library
typecheck   which types go together
reading     bytes read, with the library's refusals in its order
mistakes    sentences for what is typed by mistake
text        a text read into a tree and a table
checking    what the library would refuse, as a sentence
source      a rule and a table from a text, two texts or a folder
library     calls of the static library
evaluation  the library's entries, held against the rows
report      tables for people
plan        the targets drawn
"""
