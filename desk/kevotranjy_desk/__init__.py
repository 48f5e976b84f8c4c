"""A desk for people and partners in front of the board: HTTPS, certificates, rights, and a log of who did what.

It is one more partner of `acdm serve --again`: it can do nothing that its addresses may not do, and the board judges
each line. Outside what is proved.
"""
import sys
from pathlib import Path

TOP = Path(__file__).resolve().parents[2]
CLIENTS = TOP / "clients"
if str(CLIENTS) not in sys.path:
    sys.path.insert(0, str(CLIENTS))
