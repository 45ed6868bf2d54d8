"""A model with its data and options, in the form that the program takes."""
