"""A file that a tool makes and the repository stores."""
import sys


def keep(path, lines, origin):
    """Writes the file, or with --check fails if it is not what would be written."""
    text = "".join(line + "\n" for line in lines)
    if sys.argv[1:] not in ([], ["--check"]):
        sys.exit("usage: %s [--check]" % sys.argv[0])
    if not sys.argv[1:]:
        path.write_text(text)
    elif path.read_text() != text:
        sys.exit(
            f"{sys.argv[0]}: {path} is not what {origin}; run it without --check to write it anew"
        )
