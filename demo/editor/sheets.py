"""A CSV file as rows of cells, and back, with the line end and the byte order mark that it had."""
import codecs
import csv
import io
import re

MOST_CELLS = 20_000
csv.field_size_limit(16 * 1024 * 1024)


class NoSheet(Exception):
    """Contents that this editor doesn't show as a table, with the reason in plain words."""


class Sheet:
    """The rows of a file, and how it writes them."""

    def __init__(self, contents):
        self.mark = codecs.BOM_UTF8 if contents.startswith(codecs.BOM_UTF8) else b""
        self.line_end = next((end for end in ("\r\n", "\n", "\r") if end.encode() in contents), "\n")
        self.rows = read_rows(contents[len(self.mark):])

    def bytes_of(self, rows):
        """The contents of a file of these rows."""
        return self.mark + "".join(line_of(row) + self.line_end for row in rows).encode()


def line_of(row):
    # A row of one empty cell isn't a blank line, which is a row of no cells.
    return '""' if row == [""] else ",".join(map(written, row))


def written(cell):
    # csv.writer leaves a line break bare where it isn't the one that ends its rows.
    return '"' + cell.replace('"', '""') + '"' if re.search('[",\r\n]', cell) else cell


def read_rows(contents):
    try:
        text = contents.decode()
        rows = list(csv.reader(io.StringIO(text, newline=""), strict=True))
    except UnicodeDecodeError:
        raise NoSheet("It isn't text in UTF-8.") from None
    except csv.Error as fault:
        raise NoSheet(f"It can't be read as a table: {fault}.") from None
    if len(rows) * max([1, *map(len, rows)]) > MOST_CELLS:
        raise NoSheet(f"It has more than {MOST_CELLS:,} cells, and this editor is a small one.")
    return rows
