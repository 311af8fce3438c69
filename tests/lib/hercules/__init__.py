"""Conversations with a living 2703 under Hercules, which a guest drives as a host's access method does."""
