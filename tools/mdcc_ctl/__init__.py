"""What `tools/ctl` does: its words, its answers, and whom it asks."""
