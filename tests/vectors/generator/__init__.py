"""Makes the test vectors of this folder from the model, and the schemas that they keep."""
