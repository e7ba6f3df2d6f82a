"""The language server of kat; tools/lsp.py starts it."""
