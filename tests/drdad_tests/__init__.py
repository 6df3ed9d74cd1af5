"""What the checks of tests/ share. The client of clients/python is on the path of whoever imports this."""
import pathlib, sys

sys.path.insert(0, str(pathlib.Path(__file__).resolve().parents[2] / "clients" / "python"))
