"""Pictures of a solid for `igesolid page` and `igesolid marks`. Nothing here is proved: what fails, and where, is taken from the text of
`igesolid-where` alone, and the file is read for its geometry, so a picture can be wrong about a curve but not about a fault."""
