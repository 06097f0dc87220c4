"""A picture as bytes and as text: what tools/listing.py and tools/view.py are made of."""
