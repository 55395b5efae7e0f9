"""How the page of the proofs is made: the definitions and contracts as the sources have them, what each word of them means, and then one file to read."""
