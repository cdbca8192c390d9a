"""What the runners of tests/ share."""
