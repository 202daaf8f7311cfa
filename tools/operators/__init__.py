"""Tools for operators. A package ships this folder, which imports nothing of the other two."""
