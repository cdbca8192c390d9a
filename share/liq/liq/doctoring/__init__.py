"""What is wrong with a script and its files, and what to do: what liq-doctor does, one module a noun."""
