"""What reading the tree of a document asks of its environment, as a list, and whether a recorder kept all of it."""
