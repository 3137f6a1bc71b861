"""How the files that are handed out are made and tried; tools/release.py calls it."""
