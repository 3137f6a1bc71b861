"""python3 -m pkder.intake: the command pkder-intake."""
import sys

import pkder_intake

if __name__ == "__main__":
    sys.exit(pkder_intake.main())
