"""Finds where two maps differ, and reports it.

`command` is the subcommand of tigercanon-tools. `sets` finds the files and runs the program, `reading` reads what it prints,
`matching` and `fields` find the differences and the users' own numbers, and `words`, `page` and `geojson` write the report.
"""
