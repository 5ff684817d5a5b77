"""What is particular to x86-64."""
