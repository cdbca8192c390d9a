"""The language server for editors, liq-lsp, and the lines of liq-where, one module a noun."""
