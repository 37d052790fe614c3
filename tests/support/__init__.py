"""What the drivers share: the model, the programs under test, and how the two are compared."""
