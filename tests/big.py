"""Files that are too big to be stored: the scripts `make` of the cases call these."""


def write(path, pieces):
    """Write text pieces into a file."""
    with open(path, "w", encoding="utf-8", newline="") as file:
        file.writelines(pieces)


def numbers(path, column, count):
    """A CSV file of one column with the numbers from 1 to count."""
    write(path, [f"{column}\n"] + [f"{i}\n" for i in range(1, count + 1)])


def padded(path, text, size):
    """A file of this text and then spaces, of so many bytes."""
    write(path, [text, " " * (size - len(text.encode("utf-8")))])
