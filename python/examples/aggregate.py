"""aggregate.py FILE..: prints the shortest list of networks that has the addresses of all lists, one a line. Lists are read
as the program `netset` reads them."""
import sys

from pcidr import NetworkSet


def main() -> None:
    held = NetworkSet()
    for path in sys.argv[1:]:
        try:
            with open(path, "rb") as file:
                held |= NetworkSet.from_text(file.read())
        except ValueError as error:
            sys.exit(f"aggregate.py: {path}: {error}")
    print(*held.to_strings(), sep="\n")


if __name__ == "__main__":
    main()
