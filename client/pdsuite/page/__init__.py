"""The page of a suite: a table of scripts, and a page for each of them.

`view_model` turns outcomes into values for templates (`PageEntry` to `ScriptView` and `TableRow`), `render` fills the
templates, and `diagrams` draws the diagram of a script. `PageUpdates` keeps a page up: it hands jobs to processes
beside this one (`draw_process`) and reads which pages stand.

    PageUpdates --PageJob--> draw_process --write_table_and_script_pages_of_job--> files in the folder
         ^                    |
         +--- place of each page that stands, or a fault

    a page while scripts are watched:
      drawn --set_programs_and_discard_drawn: another sender--> marked as of the sender before --> drawn anew --> drawn
        '--queue_entries_and_advance_drawing: entries changed--> those pages alone are drawn again --> drawn

- All text is escaped by the templates; what comes from a script is shown text already.
- Only what changed is drawn again: an entry that equals the drawn one keeps its file.
- A folder with other files is refused, so that nothing is overwritten; pages of scripts that went are removed.
- Names of files come from the path and its digest, so two scripts never share one (`links`).

Pages are drawn in other processes because matplotlib takes a second to import and longer to draw: rows show meanwhile,
and a signal ends the drawing without a torn page.
"""
