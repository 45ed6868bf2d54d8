"""Why there is no plan, what would give one, and what one more unit is worth."""
