"""Test vectors for readers of private keys, public keys and certification requests, and what makes and checks them."""
# It goes up with each change of a file: the second number where tests are added, the first where one is changed.
VERSION = "1.0"
