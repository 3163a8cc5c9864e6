"""Where things stand in the checkout."""

import pathlib

TOP = pathlib.Path(__file__).resolve().parents[2]
PROGRAM = TOP / "crates/exchange_cli/out/exchange_cli"
