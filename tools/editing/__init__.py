"""What editors are told of Usercode and of jobs: the grammars that are made of the tables, and the language server."""
