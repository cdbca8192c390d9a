"""The week of the switches of a script: what liq-week and liq-picture tell, one module a noun."""
