"""A library of sounds as WAV files: what liq-prepare makes, one module a noun."""
