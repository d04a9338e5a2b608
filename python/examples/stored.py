"""stored.py FILE ADDRESS..: prints of each address the longest network that has it, in a file that `netset compile` or
`Table.save` wrote, and the network's value."""
import sys

from pcidr import Table


def main() -> None:
    try:
        table = Table.open(sys.argv[1])
        for address in sys.argv[2:]:
            found = table.lookup(address)
            if found is None:
                print(f"{address} is in none")
            else:
                network, value = found
                print(f"{address} is in {network}: {value.decode()}")
    except (OSError, ValueError) as error:
        sys.exit(f"stored.py: {error}")


if __name__ == "__main__":
    main()
