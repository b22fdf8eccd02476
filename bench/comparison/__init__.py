"""What bench/beside is made of."""
