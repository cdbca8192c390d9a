"""What the runners of bench/ share."""
