"""Writes all that follows from the tables of this folder's parent: see tables/README.md."""
