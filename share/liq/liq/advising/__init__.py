"""What is meant by a script that liq refuses, and the edit that mends it: what liq-advice says, one module a noun."""
