"""Parts of the generator of inputs for the programs."""
