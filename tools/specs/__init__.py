"""Reads the definitions that contracts cite (`specs/*.antt`) and the contracts themselves, for scripts of the gate."""
