"""What several tools share, or a tool is too long without. Nobody calls these files by hand."""
