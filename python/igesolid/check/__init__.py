"""The command `igesolid check`: verdicts on many files, as text, JSON or CSV, judged here or by a Dask cluster."""
