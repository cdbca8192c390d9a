"""A station that is kept on the air day after day: what liq-station does, one module a noun."""
