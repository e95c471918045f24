"""What compiles, proves and installs the program, and what looks at its sources."""
