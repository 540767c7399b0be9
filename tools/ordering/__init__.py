"""What `tools/order` is made of."""
