"""What the built programs are tested by: tables of rows, harness/ that runs them, oracle/ that answers on its own."""
