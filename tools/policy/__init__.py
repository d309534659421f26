"""What the tools for rule authors share: running the programs, reading what they print, and reading rule files."""
