"""What is particular to aarch64."""
