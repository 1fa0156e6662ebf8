"""A search, a feed and links by Message-ID, made of what an archive shows each reader (samples/search/README.md)."""
