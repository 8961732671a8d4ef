"""The commands: each module has a `main`, which answers the status."""
