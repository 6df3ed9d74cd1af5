"""The version of the client, which is that of the server whose repository it comes from."""
__version__ = "0.10"
