"""What makes the files of examples/media and of examples/forth."""
