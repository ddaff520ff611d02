"""What tools/torture is made of: scripts that are made smaller, and trials of an adapter."""
