"""The rules of docs/check, and what the printed pages are made from."""
