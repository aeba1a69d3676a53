"""How long the programs take, and how much memory."""
