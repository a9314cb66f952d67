"""What tools/captures is made of: a file for each concept."""
