"""The helper tools on the command line."""
