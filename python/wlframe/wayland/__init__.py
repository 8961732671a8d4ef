"""The messages of the protocol: their table, their bytes and words, and the objects that they are sent to."""
