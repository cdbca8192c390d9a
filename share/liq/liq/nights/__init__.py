"""A night that is rendered in parts: what liq-night does, one module a noun."""
