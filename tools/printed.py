"""Parts of the documents that a tool prints, between marks with the tool's name."""

from usage import fail


def renew(page, tool, text):
    """Puts a text between the marks of a tool."""
    begin, end = f"<!-- printed by {tool} -->\n", f"<!-- end of what {tool} prints -->\n"
    with open(page, encoding="utf-8") as file:
        before, begun, rest = file.read().partition(begin)
    _, ended, behind = rest.partition(end)
    if not ended:
        fail(f"{tool}: its marks don't stand in {page}")
    with open(page, "w", encoding="utf-8") as file:
        file.write(before + begun + text + ended + behind)
