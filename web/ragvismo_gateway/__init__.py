"""The gateway: members log in, trade for their own accounts alone, and see what all may see."""
