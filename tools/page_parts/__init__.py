"""What tools/page is made of: runs of the program, what its worlds have in common, questions in words, and the page itself."""
