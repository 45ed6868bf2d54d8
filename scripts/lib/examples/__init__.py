"""The checks of scripts/check_examples, by what they give the program."""
