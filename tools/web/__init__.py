"""How the page is made: the machine as WebAssembly, and then one file with the machine, the script, the style and the jobs."""
