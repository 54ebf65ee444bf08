"""The command line of each tool."""
