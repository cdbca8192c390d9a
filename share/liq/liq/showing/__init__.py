"""What `liq` says beside the program where standard error is a terminal."""
