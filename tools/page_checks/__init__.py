"""What `tools/pages` checks: names in pages and comments, commands that are shown with their output, lines of help."""
