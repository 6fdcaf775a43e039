"""Checks of tables/* by what does not come from them, and of what is written from them."""
