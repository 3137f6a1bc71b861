"""The command pkder-intake: it ends by a status of its own whatever happens, since Python's for a failure, 1, says that
a document is sound. It stands outside the package so that a library which isn't found is told as well."""
import sys


def main() -> int:
    """Runs the command, and returns its status."""
    try:
        from pkder.intake._command import main as run

        return run()
    except ImportError as why:
        print(f"pkder-intake: {why}", file=sys.stderr)
    except KeyboardInterrupt:
        return 130
    except Exception as why:
        # (its message may have octets of an input)
        print(f"pkder-intake: failed: {type(why).__name__}", file=sys.stderr)
    return 3


if __name__ == "__main__":
    sys.exit(main())
