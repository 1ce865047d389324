"""The forms of all tables, by their files' names, and the rows of a file with a folder of its own for each."""
import pathlib

import accepted
import asked
import codes
import lists
import machines
import placed
import progress
import promised
import saved
import told
from rows import Row
from tables import rows_of_file

TABLES = pathlib.Path(__file__).resolve().parents[1] / "tables"
FORMS = {
    **accepted.FORMS,
    **told.FORMS,
    **asked.FORMS,
    **saved.FORMS,
    **codes.FORMS,
    **machines.FORMS,
    **lists.FORMS,
    **placed.FORMS,
    **progress.FORMS,
    **promised.FORMS,
}


def rows_of(path, rvtest, work):
    """The rows of a file, numbered from 1."""
    form, found = FORMS[path.stem], []
    for number, row in enumerate(rows_of_file(path, form.columns.split()), 1):
        folder = work / f"{path.stem}-{number}"
        found.append(Row(form, path.stem, row.title, number, row.number, row.text, row.asks, rvtest, folder))
    return found
