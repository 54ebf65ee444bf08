"""What is read of the repository's own sources, for `tools/reading`, checks and the site."""
