"""A script of Liquidsoap in the language of liq: what liq-adopt writes, one module a noun."""
