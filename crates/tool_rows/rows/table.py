"""The list of rows, and the files that they name."""

FILES, ROWS = {}, []


def note(text):
    """A line of stdin that is no row."""
    ROWS.append(("# " + text, None))


def data(name, what, content):
    """A file, and what it is."""
    assert name not in FILES, name
    FILES[name] = content
    note("%s: %s" % (name, what))


def row(line, text="", status=0):
    """A line of stdin, the text that the tool is to write, with a line break behind each line but perhaps the last, and the status that it is to end with. An
    empty line in front of the text is none of it."""
    text = text.removeprefix("\n")
    if text and not text.endswith("\n"):
        text += "\n"
    ROWS.append((line, "> %s\n%sstatus %d\n" % (line, text, status)))


def refused(line, status):
    """A line for which nothing is written."""
    row(line, "", status)


def each_read(line, parts, text="", status=0):
    """A line behind `each-read`: each call in turn fails that reads the file. The size is asked for once; then the last bytes, the footer and each further
    part take two calls: the size again, and the bytes."""
    each("each-read " + line, 8, 1 + 2 * (2 + parts), text, status)


def each_write(line, text):
    """A line behind `each-write`: each call in turn fails that writes the text, a byte in each."""
    each("each-write " + line, 9, len(text.removeprefix("\n").encode()), text, 0)


def each(line, failing, calls, text, status):
    """A line of many runs, of which so many end with a failure."""
    statuses = [failing] * calls + [status]
    row(line, "statuses %s\n%s" % (" ".join(map(str, statuses)), text.removeprefix("\n")), status)
