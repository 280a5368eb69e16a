"""Tables of a document, by their columns."""
import re


def unfenced(text):
    """The text without its fenced blocks, line by line."""
    return re.sub(r"^```.*?^```$", lambda block: "\n" * block[0].count("\n"), text, flags=re.M | re.S)


def is_table(line):
    return line.startswith("|") and line.endswith("|")


def rows_of(text):
    """Each line of an unfenced text with what it says by column, where it is a row of a table; else with None."""
    columns = None
    for line in text.splitlines():
        if not is_table(line):
            columns = None
            yield line, None
            continue
        cells = [cell.strip() for cell in line[1:-1].split("|")]
        if columns is None:
            columns = cells
            yield line, None
        elif set(line) <= set("|- :"):
            yield "", None
        else:
            yield line, dict(zip(columns, cells))


def without(text, columns):
    """The lines of the text, without the cells of these columns."""
    for line, row in rows_of(text):
        yield line if row is None else " | ".join(cell for column, cell in row.items() if column not in columns)
