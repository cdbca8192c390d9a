"""What a script, its lists and its sounds hold, as the companion program tells it."""
