"""The pictures of the documents, each drawn by a module of its own; tools/pictures writes them."""
