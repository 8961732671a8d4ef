"""The bridge between unmodified clients and the server."""
