"""What mklist makes a list of, and how: files beside tests, which are tests, their keys, their jobs."""
