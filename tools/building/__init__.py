"""How the program is built: when and on how many processors each crate is proved, where that happens, and how progress is shown."""
