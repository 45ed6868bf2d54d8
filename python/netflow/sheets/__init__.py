"""Plans as tables, and tables as data."""
