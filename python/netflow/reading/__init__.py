"""Reads the texts of models and data, and what the program prints."""
