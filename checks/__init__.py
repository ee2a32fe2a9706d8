"""The scripts that check the repository, with their library."""
