"""Reports: while they grow, in each format, kept, read back, and one beside another.

A `Report` takes outcomes as they come and shows them in the order of paths, by a `Formatter`: `PlainFormatter`,
`JsonFormatter`, `TapFormatter` or `GithubFormatter`, which others may wrap (`NewRowsFormatter`, `FittingFormatter`).
JUnit's XML is written at the end. `report_cache` keeps the last report of each group of paths, `saved_reports` reads
reports back, and `row_changes` compares two of them.

    Step .. --> Report --Formatter--> Screen
                  |
                  +--> junit, as_json, tap: files    +--> report_cache --> --last-failed, --new-only, pdsuite diff

- A formatter gets values and knows of no run: an opening, one entry for each script, a summary. So each format is
  tested by itself.
- An outcome is shown as soon as all before it were; the order is that of paths, and never that of finishing.
- A report that is read back has to be one: what is no report is a fault that names the file, and no guess.
- Explanations are shown in the words of the program (`outcome_text`); a format only escapes them.

Reports of comparisons and searches are here, too (`comparison`, `search`), since they share the words and the JSON;
what is compared is decided in `compare` and `search`.
"""
