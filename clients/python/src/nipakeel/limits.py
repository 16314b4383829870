"""The limits of the program and the weights of its transactions (docs/CONSOLE.md; tests/tools compares)."""

MOST_LINE, MOST_NAME, MOST_TEXT, MOST_PROPERTIES = 8_192, 48, 1_024, 32
LEAST_NUMBER, MOST_NUMBER = -(2**63), 2**63 - 1
# The greatest limit of a store. Its identifiers are below it.
MOST_ELEMENTS = 2**24
# The greatest identifier that a line may have.
MOST_IDENTIFIER = 2**32 - 2
# A run takes so many bytes of input.
MOST_INPUT = 2**30
# A text of this many bytes or fewer takes no block, and a longer one takes blocks of 48.
SHORT_TEXT, BLOCK = 40, 48
DEFAULT_THRESHOLD = 50
# Numbered from 0 on.
SESSIONS = 8

# The weights: the most of a transaction, that of one with no change, and of the changes that the tools make.
MOST_WEIGHT, LEAST_WEIGHT = 2_048, 7
NODE_WEIGHT, EDGE_WEIGHT, SET_WEIGHT = 1, 9, 2
# That of a node for each index of the store that has its label and one of its keys.
ENTRY_WEIGHT = 3
# So many indexes a store has, and so many nodes may have the label and the key of one when it is made.
MOST_INDEXES, MOST_INDEXED = 16, 1_024
