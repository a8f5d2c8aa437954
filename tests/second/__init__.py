"""A second program, written straight from the definitions and apart from the proved library.

It serves only to be compared with the library. It is no translation of it: the finished table comes from
listing every load up to the bound, and settling goes one step at a time."""
