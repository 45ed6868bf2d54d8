"""What an error of a model or its data probably means, and its fix."""
