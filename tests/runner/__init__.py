"""What runs rows, cases, documents and the bytes in sources by their names."""
