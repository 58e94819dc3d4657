"""Cells as tables may have them, and how they are written."""

CELLS = ["x", "tea, black", "two\nlines", 'a "quote"', "", "a\rreturn", "two\r\nends", "\u00e4"]


def lines_of(rows: list[tuple[int, str]], cells: list[str]) -> str:
    """Records, those with these cells in quotes."""
    quoted = ((number, '"' + text.replace('"', '""') + '"' if text in cells else text) for number, text in rows)
    return "#,number,text\n" + "".join(f"2,{number},{text}\n" for number, text in quoted)
