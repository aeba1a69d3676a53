"""Makes a Full of RFC 8909 of the tables of a registry.

`program` has the words of the program. A source of objects (`tables`, a folder, or `store`) is
filled (`fillings`) and written (`document`) in one of two models (`xml_model` by `shape`, and
`csv_model`); `forms` has what texts are allowed, and `telling` what is told. `names`, `faults`,
`keys`, `limits` and `writing` are modules of unpack_rde."""
