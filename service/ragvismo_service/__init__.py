"""The log of an exchange in Redis, and those who read it and write to it."""
