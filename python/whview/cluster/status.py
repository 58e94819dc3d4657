"""The statuses of `whview cluster`: those of `whview folder`, and one for servers and other clients."""

DONE, REFUSED, BAD_WORDS, BAD_INPUT, FAILED = range(5)
