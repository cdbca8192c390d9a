"""The page of a rendering: what liq-page makes, one module a noun."""
