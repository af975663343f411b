"""Which change orders are in force: those that ZESTCHINTZ_ORDERS names, or all."""
import os

NAMED = os.environ.get("ZESTCHINTZ_ORDERS")


def in_force(order):
    return NAMED is None or str(order) in NAMED.split(",")
