"""How a tool prints its usage: for those whose arguments are few words."""
import sys


def usage(doc, arguments, is_right):
    """Prints how a tool is used, and ends it, if that is requested or the arguments are wrong."""
    if arguments and arguments[0] in ("-h", "--help"):
        print(doc.strip())
        sys.exit(0)
    if not is_right:
        print(doc.strip(), file=sys.stderr)
        sys.exit(2)
