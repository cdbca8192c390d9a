"""Names in lines for people, and runs of the program that are watched."""
