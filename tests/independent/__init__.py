"""The rules of docs/RULES.md, one module for each subject. Nothing here uses or follows the library's own code."""
