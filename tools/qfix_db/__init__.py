"""The tools beside qfix: from a real database to the files that it reads, and back. They prove nothing."""
