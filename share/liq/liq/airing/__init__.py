"""Renderings on the air, one after another as one stream: what liq-air does, one module a noun."""
