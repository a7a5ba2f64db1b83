"""What the tools share. Each module says in its first line what it is for."""
