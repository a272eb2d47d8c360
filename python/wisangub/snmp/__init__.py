"""Octets of SNMPv1, names of objects, and the MIB."""
